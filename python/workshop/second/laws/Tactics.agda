-- The words with which proofs leave a step to the prover, as macros. Each looks for a term, which Agda then checks. By hand.
{-# OPTIONS --safe #-}
module Tactics where

open import Base
open import Words using (not; length)
open import Lemmas
open import Linear
open import Agda.Builtin.Reflection renaming (bindTC to infixl 1 _>>=_; returnTC to return; absurd to absurd-pattern; nat to nat-literal; Sort to Sort′)
open import Agda.Builtin.Sigma

-- facts at hand, with their statements
infixr 5 _&_
data Facts : Set₁ where
  no-facts : Facts
  _&_ : {A : Set} → A → Facts → Facts

given hidden-one : {A : Set} → A → Arg A
given = arg (arg-info visible (modality relevant quantity-ω))
hidden-one = arg (arg-info hidden (modality relevant quantity-ω))

call : Name → List Term → Term
call f xs = def f (each given xs)

is : Name → Name → Bool
is = primQNameEquality

tried : {A : Set} → List (TC A) → TC A → TC A
tried [] last = last
tried (t ∷ ts) last = catchTC t (tried ts last)

all-of : {A B : Set} → (A → TC (List B)) → List A → TC (List B)
all-of f [] = return []
all-of f (x ∷ xs) = f x >>= λ ys → all-of f xs >>= λ zs → return (ys ++ zs)

-- ---- terms

-- what a walk does at a variable under so many binders, and at any term before it goes inside
record Walk : Set where
  field
    variable-at : ℕ → ℕ → ℕ
    instead : ℕ → Term → Option Term

module _ (w : Walk) where
  open Walk w
  mutual
    walk : ℕ → Term → Term
    walk d t = or-inside (instead d t) where
      or-inside : Option Term → Term
      or-inside (Some u) = u
      or-inside None = inner d t

    inner : ℕ → Term → Term
    inner d (var x as) = var (variable-at d x) (walks d as)
    inner d (con k as) = con k (walks d as)
    inner d (def k as) = def k (walks d as)
    inner d (lam v (abs s t)) = lam v (abs s (walk (suc d) t))
    inner d (pat-lam cs as) = pat-lam cs (walks d as)
    inner d (pi (arg i a) (abs s b)) = pi (arg i (walk d a)) (abs s (walk (suc d) b))
    inner d (meta m as) = meta m (walks d as)
    inner d t = t

    walks : ℕ → List (Arg Term) → List (Arg Term)
    walks d [] = []
    walks d (arg i t ∷ as) = arg i (walk d t) ∷ walks d as

nowhere : ℕ → Term → Option Term
nowhere d t = None

-- a term under so many more binders
raised : ℕ → Term → Term
raised n = walk (record { variable-at = λ d x → if nat-lt x d then x else (x + n) ; instead = nowhere }) 0

-- what is under a binder that it doesn't name
lowered : Term → Term
lowered = walk (record { variable-at = λ d x → if nat-lt x d then x else (x - 1) ; instead = nowhere }) 0

is-hidden : ArgInfo → Bool
is-hidden (arg-info visible m) = false
is-hidden (arg-info v m) = true

mutual
  same-term : Term → Term → Bool
  same-term (var x as) (var y bs) = (x == y) && same-terms as bs
  same-term (con x as) (con y bs) = is x y && same-terms as bs
  same-term (def x as) (def y bs) = is x y && same-terms as bs
  same-term (lam v (abs s t)) (lam w (abs r u)) = same-term t u
  same-term (pi (arg i a) (abs s b)) (pi (arg j c) (abs r d)) = same-term a c && same-term b d
  same-term (lit (nat-literal m)) (lit (nat-literal n)) = m == n
  same-term (agda-sort s) (agda-sort t) = true
  same-term t u = false

  -- hidden arguments follow from the others
  same-terms : List (Arg Term) → List (Arg Term) → Bool
  same-terms [] [] = true
  same-terms (arg i a ∷ as) (arg j b ∷ bs) = (is-hidden i || same-term a b) && same-terms as bs
  same-terms as bs = false

-- with a new variable wherever a term has another in it
with-hole : Term → Term → Term
with-hole x = walk (record
  { variable-at = λ d y → if nat-lt y d then y else suc y
  ; instead = λ d t → if same-term (raised d x) t then Some (var d []) else None }) 0

-- what isn't known yet in a term
mutual
  open-in : Term → Option Meta
  open-in (var x as) = open-ins as
  open-in (con k as) = open-ins as
  open-in (def k as) = open-ins as
  open-in (lam v (abs s t)) = open-in t
  open-in (pat-lam cs as) = open-ins as
  open-in (pi (arg i a) (abs s b)) = either (open-in a) (open-in b) where
    either : Option Meta → Option Meta → Option Meta
    either None o = o
    either (Some m) o = Some m
  open-in (meta m as) = Some m
  open-in t = None

  open-ins : List (Arg Term) → Option Meta
  open-ins [] = None
  open-ins (arg i t ∷ as) = either (open-in t) (open-ins as) where
    either : Option Meta → Option Meta → Option Meta
    either None o = o
    either (Some m) o = Some m

-- goes on once all of a term is known
known-then : {A : Set} → Term → TC A → TC A
known-then t go = by (open-in t) where
  by : Option Meta → TC _
  by None = go
  by (Some m) = blockOnMeta m

-- ---- equations

record Equation : Set where
  constructor equation
  field
    proof left right : Term

is-equation : Term → Bool
is-equation (def f as) = is f (quote _≡_)
is-equation t = false

sides : Term → Term → List Equation
sides h (def f (_ ∷ _ ∷ arg _ a ∷ arg _ b ∷ [])) = if is f (quote _≡_) then (equation h a b ∷ []) else []
sides h t = []

-- what something proves as an equation, computed whole, once all of that is known
equations-of : Term → TC (List Equation)
equations-of h = inferType h >>= reduce >>= of-type where
  of-type : Term → TC (List Equation)
  of-type (meta m as) = blockOnMeta m
  of-type t = if is-equation t then (normalise t >>= λ u → known-then u (return (sides h u))) else return []

facts-of : Term → List Term
facts-of (con k (_ ∷ arg _ h ∷ arg _ rest ∷ [])) = h ∷ facts-of rest
facts-of t = []

numbered : {A : Set} → List A → ℕ → List Term
numbered [] n = []
numbered (x ∷ xs) n = var n [] ∷ numbered xs (suc n)

-- ---- rw: a goal with one side of equations for the other

rewritten : Term → List Equation → Term → TC ⊤
rewritten hole (equation e a b ∷ []) goal = normalise goal >>= λ g →
  unify hole (call (quote subst) (lam visible (abs "x" (with-hole a g)) ∷ call (quote sym) (e ∷ []) ∷ []))
rewritten hole es goal = typeError (strErr "rw: no equation" ∷ [])

rw-to : Term → Term → Term → TC ⊤
rw-to e hole (pi (arg _ a) (abs _ goal)) = known-then (lowered goal) (equations-of e >>= λ es → rewritten hole es (lowered goal))
rw-to e hole (meta m as) = blockOnMeta m
rw-to e hole t = typeError (strErr "rw: no function is wanted" ∷ [])

macro
  rw- : Term → Term → TC ⊤
  rw- e hole = inferType hole >>= reduce >>= rw-to e hole

-- ---- cc: what follows from equations at hand, or contradicts them

turned-equation : Equation → Equation
turned-equation (equation h a b) = equation (call (quote sym) (h ∷ [])) b a

joined-equations : List Equation → List Equation → List Equation
joined-equations [] fs = []
joined-equations (equation h a b ∷ es) fs = with-each fs ++ joined-equations es fs where
  with-each : List Equation → List Equation
  with-each [] = []
  with-each (equation k c d ∷ gs) =
    if same-term b c then (equation (call (quote _∙_) (h ∷ k ∷ [])) a d ∷ with-each gs) else with-each gs

-- two forms of one type
mutual
  are-apart : Term → Term → Bool
  are-apart (con c as) (con d bs) = not (is c d) || any-apart as bs
  are-apart (lit (nat-literal m)) (lit (nat-literal n)) = not (m == n)
  are-apart (lit (nat-literal zero)) (con d (_ ∷ _)) = true
  are-apart (con d (_ ∷ _)) (lit (nat-literal zero)) = true
  are-apart (lit (nat-literal (suc m))) (con d []) = true
  are-apart (con d []) (lit (nat-literal (suc m))) = true
  are-apart t u = false

  any-apart : List (Arg Term) → List (Arg Term) → Bool
  any-apart (arg i a ∷ as) (arg j b ∷ bs) = not (is-hidden i) && are-apart a b || any-apart as bs
  any-apart as bs = false

by-no-form : Term → Term
by-no-form h = call (quote of-) (h ∷ pat-lam (absurd-clause (("x" , given unknown) ∷ []) (given (absurd-pattern 0) ∷ []) ∷ []) [] ∷ [])

by-refl : Term → Term
by-refl h = call (quote of-) (h ∷ pat-lam (clause [] (given (con (quote refl) []) ∷ []) (con (quote refl) []) ∷ []) [] ∷ [])

fitting : Term → Term → List Equation → List Term
fitting a b [] = []
fitting a b (equation h c d ∷ es) = if same-term a c && same-term b d then (h ∷ fitting a b es) else fitting a b es

-- equations that are the goal
of-goal : Term → List Equation → List Term
of-goal goal es = by (sides goal goal) where
  by : List Equation → List Term
  by (equation h a b ∷ []) = fitting a b es
  by fs = []

contradicted : List Equation → List Term
contradicted [] = []
contradicted (equation h a b ∷ es) = if are-apart a b then (h ∷ contradicted es) else contradicted es

is-never : Term → Bool
is-never (def f as) = is f (quote ⊥)
is-never t = false

nevers : List Term → TC (List Term)
nevers = all-of (λ h → inferType h >>= reduce >>= λ t → return (if is-never t then (h ∷ []) else []))

checked : Term → Term → Term → TC ⊤
checked hole goal t = checkType t goal >>= unify hole

proved : Equation → Term
proved (equation h a b) = h

closed : Term → List Term → List Term → List Equation → TC ⊤
closed hole hypotheses bots given-ones = inferType hole >>= normalise >>= λ goal → known-then goal (
  tried (each (λ h → checked hole goal (call (quote absurd) (h ∷ []))) bots
    ++ (each (λ h → checked hole goal (by-no-form h)) (contradicted all)
    ++ (each (checked hole goal) (of-goal goal all)
    ++ (checked hole goal (con (quote refl) [])
    ∷ each (λ e → checked hole goal (by-refl (proved e))) all))))
  (typeError (strErr "cc: nothing gives" ∷ termErr goal ∷ []))) where
  once twice all : List Equation
  once = given-ones ++ each turned-equation given-ones
  twice = joined-equations once once
  all = once ++ (twice ++ joined-equations twice once)

-- facts with names, and then those of the context
macro
  cc- : Term → Term → TC ⊤
  cc- facts hole = getContext >>= λ context → let hs = facts-of facts ++ numbered context 0 in
    nevers hs >>= λ bots → all-of equations-of hs >>= closed hole hs bots

-- ---- omega: linear arithmetic, of the facts with names

-- terms that aren't sums, in the order in which they are met
Atoms : Set
Atoms = List Term

place : Term → Atoms → ℕ → Option ℕ
place t [] n = None
place t (x ∷ xs) n = if same-term t x then Some n else place t xs (suc n)

Read : Set
Read = Sig2 Sum (λ _ → Atoms)

as-atom : Term → Atoms → Read
as-atom t xs = by (place t xs 0) where
  by : Option ℕ → Read
  by (Some n) = t2 (atom n) xs
  by None = t2 (atom (length xs)) (xs ++ (t ∷ []))

read : ℕ → Term → Atoms → Read
read zero t xs = as-atom t xs
read (suc d) (lit (nat-literal n)) xs = t2 (number n) xs
read (suc d) (con c []) xs = t2 (number 0) xs
read (suc d) (con c (arg _ a ∷ [])) xs = one-more (read d a xs) where
  one-more : Read → Read
  one-more (t2 s ys) = t2 (number 1 ⊕ s) ys
read (suc d) (def f (arg i a ∷ arg j b ∷ [])) xs =
  if is f (quote _+_) then summed (read d a xs) else (if is f (quote _*_) then times a else as-atom (def f (arg i a ∷ arg j b ∷ [])) xs) where
  both : Sum → Read → Read
  both s (t2 r zs) = t2 (s ⊕ r) zs
  summed : Read → Read
  summed (t2 s ys) = both s (read d b ys)
  scaled-by : ℕ → Read → Read
  scaled-by k (t2 s ys) = t2 (k ⊛ s) ys
  times : Term → Read
  times (lit (nat-literal k)) = scaled-by k (read d b xs)
  times t = as-atom (def f (arg i a ∷ arg j b ∷ [])) xs
read (suc d) t xs = as-atom t xs

DEEPEST : ℕ
DEEPEST = 100

-- a statement that is read: an equation of numbers, or that one is at most, or less than, another
data Said : Set where
  equal-to at-most-that : Term → Term → Said

suc-of : Term → Term
suc-of t = con (quote suc) (given t ∷ [])

said-of : Term → List Said
said-of (def f (_ ∷ arg _ (def k []) ∷ arg _ a ∷ arg _ b ∷ [])) =
  if is f (quote _≡_) then (if is k (quote ℕ) then (equal-to a b ∷ []) else (if is k (quote Bool) then test a b else [])) else [] where
  test : Term → Term → List Said
  test (def g (arg _ m ∷ arg _ n ∷ [])) (con c []) = if is g (quote nat-lt) && is c (quote true) then (at-most-that (suc-of m) n ∷ []) else []
  test (con c []) (con d []) = if is c d then [] else (at-most-that (lit (nat-literal 1)) (lit (nat-literal 0)) ∷ [])
  test s t = []
said-of t = []

record Known : Set where
  constructor known
  field
    facts : List Fact
    proofs : Term
    atoms : Atoms

quoted-list : {A : Set} → (A → Term) → List A → Term
quoted-list q [] = con (quote []) []
quoted-list q (x ∷ xs) = con (quote _∷_) (given (q x) ∷ given (quoted-list q xs) ∷ [])

quoted : Sum → Term
quoted (number n) = con (quote number) (given (lit (nat-literal n)) ∷ [])
quoted (atom i) = con (quote atom) (given (lit (nat-literal i)) ∷ [])
quoted (a ⊕ b) = con (quote _⊕_) (given (quoted a) ∷ given (quoted b) ∷ [])
quoted (k ⊛ a) = con (quote _⊛_) (given (lit (nat-literal k)) ∷ given (quoted a) ∷ [])

quoted-fact : Fact → Term
quoted-fact (a ⊑ b) = con (quote _⊑_) (given (quoted a) ∷ given (quoted b) ∷ [])
quoted-fact (a ≗ b) = con (quote _≗_) (given (quoted a) ∷ given (quoted b) ∷ [])

quoted-fork : Fork → Term
quoted-fork (a or b) = con (quote _or_) (given (quoted-list quoted-fact a) ∷ given (quoted-list quoted-fact b) ∷ [])

pair-of : Term → Term → Term
pair-of a b = con (quote t2) (given a ∷ given b ∷ [])

of-fact : Term → Said → Known → Known
of-fact h (equal-to a b) (known fs ps xs) = by (read DEEPEST a xs) where
  both : Sum → Read → Known
  both s (t2 r zs) = known ((s ≗ r) ∷ fs) (pair-of h ps) zs
  by : Read → Known
  by (t2 s ys) = both s (read DEEPEST b ys)
of-fact h (at-most-that a b) (known fs ps xs) = by (read DEEPEST a xs) where
  both : Sum → Read → Known
  both s (t2 r zs) = known ((s ⊑ r) ∷ fs) (pair-of (call (quote inside) (a ∷ b ∷ h ∷ [])) ps) zs
  by : Read → Known
  by (t2 s ys) = both s (read DEEPEST b ys)

of-facts : List Term → Known → TC Known
of-facts [] k = return k
of-facts (h ∷ hs) k = inferType h >>= normalise >>= λ t → of-facts hs (by (said-of t)) where
  by : List Said → Known
  by (s ∷ ss) = of-fact h s k
  by [] = k

-- the differences among atoms; to read what is subtracted may bring more atoms
record Differences : Set where
  constructor differences
  field
    forks : List Fork
    proofs : Term → Term
    atoms : Atoms

of-difference : ℕ → Term → Differences → Differences
of-difference i (def f (arg _ a ∷ arg _ b ∷ [])) (differences ds ps xs) =
  if is f (quote _-_) then by (read DEEPEST a xs) else differences ds ps xs where
  both : Sum → Read → Differences
  both s (t2 r zs) = differences ((((s ⊑ r) ∷ (atom i ≗ number 0) ∷ []) or ((r ⊑ s) ∷ (atom i ⊕ r ≗ s) ∷ [])) ∷ ds)
    (λ ρ → pair-of (call (quote monus-fork) (ρ ∷ quoted s ∷ quoted r ∷ quoted (atom i) ∷ con (quote refl) [] ∷ [])) (ps ρ)) zs
  by : Read → Differences
  by (t2 s ys) = both s (read DEEPEST b ys)
of-difference i t d = d

of-differences : ℕ → ℕ → Differences → Differences
of-differences zero i d = d
of-differences (suc n) i d = by (nth i (Differences.atoms d)) where
  nth : ℕ → Atoms → Option Term
  nth i [] = None
  nth zero (x ∷ xs) = Some x
  nth (suc i) (x ∷ xs) = nth i xs
  by : Option Term → Differences
  by None = d
  by (Some t) = of-differences n (suc i) (of-difference i t d)

done : Term
done = con (quote tt) []

decided : Term → Name → Term → Term → Known → (Term → Term) → TC ⊤
decided hole law a b (known fs ps xs) wrapped = by (read DEEPEST a xs) where
  last : Sum → Sum → Differences → TC ⊤
  last s r (differences ds qs zs) = let ρ = quoted-list (λ t → t) zs in unify hole (wrapped (call law
    (lit (nat-literal (length zs)) ∷ ρ ∷ quoted-list quoted-fact fs ∷ quoted-list quoted-fork ds
      ∷ quoted s ∷ quoted r ∷ con (quote refl) [] ∷ ps ∷ qs ρ ∷ [])))
  both : Sum → Read → TC ⊤
  both s (t2 r zs) = last s r (of-differences DEEPEST 0 (differences [] (λ ρ → done) zs))
  by : Read → TC ⊤
  by (t2 s ys) = both s (read DEEPEST b ys)

outside-of : Term → Term
outside-of t = call (quote outside) (t ∷ [])

-- from nothing but facts that can't be
refuted-by : Term → Known → TC ⊤
refuted-by hole k = decided hole (quote at-most) (lit (nat-literal 1)) (lit (nat-literal 0)) k
  (λ t → call (quote of-) (outside-of t ∷ pat-lam (absurd-clause (("x" , given unknown) ∷ []) (given (absurd-pattern 0) ∷ []) ∷ []) [] ∷ []))

by-goal : Term → Term → Known → TC ⊤
by-goal hole goal k = by (said-of goal) where
  by : List Said → TC ⊤
  by (equal-to a b ∷ ss) = decided hole (quote equal) a b k (λ t → t)
  by (at-most-that a b ∷ ss) = decided hole (quote at-most) a b k outside-of
  by [] = if is-never goal then refuted-by hole k else typeError (strErr "omega: not of numbers" ∷ termErr goal ∷ [])

-- by the facts with names, or else by all of the context, too
macro
  omega- : Term → Term → TC ⊤
  omega- facts hole = inferType hole >>= normalise >>= λ goal → known-then goal (getContext >>= λ context →
    let by = λ hs → of-facts hs (known [] done []) >>= by-goal hole goal in
    tried (checked hole goal (con (quote refl) []) ∷ by (facts-of facts) ∷ []) (by (facts-of facts ++ numbered context 0)))

-- ---- a number that is at most another is the same or less. What the two are, its type says

by-sides : Term → Term → Term → TC ⊤
by-sides l hole (def f (arg _ a ∷ arg _ b ∷ [])) =
  if is f (quote _≤_) then unify hole (def (quote eq-or-lt-of-le) (hidden-one a ∷ hidden-one b ∷ given l ∷ [])) else typeError (strErr "no ≤" ∷ [])
by-sides l hole (meta m as) = blockOnMeta m
by-sides l hole t = typeError (strErr "no ≤" ∷ termErr t ∷ [])

macro
  eq-or-lt- : Term → Term → TC ⊤
  eq-or-lt- l hole = inferType l >>= by-sides l hole

-- ---- search: statements that hold by computing

by-computing : ℕ → Term → Term
by-computing zero t = unknown
by-computing (suc d) (def f (arg _ a ∷ arg _ (lam v (abs s b)) ∷ [])) =
  if is f (quote Sig2) then pair-of (by-computing d a) (by-computing d b) else con (quote refl) []
by-computing (suc d) (def f (arg _ a ∷ arg _ (lam v (abs s b)) ∷ arg _ (lam w (abs r (lam x (abs q c)))) ∷ [])) =
  if is f (quote Sig3) then con (quote t3) (each given (by-computing d a ∷ by-computing d b ∷ by-computing d c ∷ [])) else con (quote refl) []
by-computing d t = con (quote refl) []

macro
  search- : Term → TC ⊤
  search- hole = inferType hole >>= normalise >>= λ goal → known-then goal (checked hole goal (by-computing DEEPEST goal))
