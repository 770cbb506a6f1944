-- Linear arithmetic of natural numbers: multipliers that refute facts are looked for, and what refutes them is proved to. By hand.
{-# OPTIONS --safe #-}
module Linear where

open import Base
open import Words using (not; min)
open import Lemmas

infix 4 _⊴_ _⊑_ _≗_
infixl 6 _⊕_ _⊖_

-- ---- numbers

data _⊴_ : ℕ → ℕ → Set where
  least : {n : ℕ} → zero ⊴ n
  both-more : {m n : ℕ} → m ⊴ n → suc m ⊴ suc n

inside : (m n : ℕ) → m ≤ n → m ⊴ n
inside zero n l = least
inside (suc m) (suc n) l = both-more (inside m n l)

outside : {m n : ℕ} → m ⊴ n → m ≤ n
outside least = refl
outside (both-more l) = outside l

⊴-refl : (n : ℕ) → n ⊴ n
⊴-refl zero = least
⊴-refl (suc n) = both-more (⊴-refl n)

⊴-equal : {m n : ℕ} → m ≡ n → m ⊴ n
⊴-equal {m} refl = ⊴-refl m

⊴-trans : {a b c : ℕ} → a ⊴ b → b ⊴ c → a ⊴ c
⊴-trans least q = least
⊴-trans (both-more p) (both-more q) = both-more (⊴-trans p q)

⊴-suc : {m n : ℕ} → m ⊴ n → m ⊴ suc n
⊴-suc least = least
⊴-suc (both-more l) = both-more (⊴-suc l)

⊴-after : (b d : ℕ) → d ⊴ b + d
⊴-after zero d = ⊴-refl d
⊴-after (suc b) d = ⊴-suc (⊴-after b d)

⊴-sum : {a b c d : ℕ} → a ⊴ b → c ⊴ d → a + c ⊴ b + d
⊴-sum {b = b} {d = d} least q = ⊴-trans q (⊴-after b d)
⊴-sum (both-more p) q = both-more (⊴-sum p q)

⊴-scale : (k : ℕ) {a b : ℕ} → a ⊴ b → k * a ⊴ k * b
⊴-scale zero l = least
⊴-scale (suc k) l = ⊴-sum l (⊴-scale k l)

⊴-times : {a b : ℕ} (x : ℕ) → a ⊴ b → a * x ⊴ b * x
⊴-times x least = least
⊴-times x (both-more l) = ⊴-sum (⊴-refl x) (⊴-times x l)

⊴-both : {m n : ℕ} → m ⊴ n → n ⊴ m → m ≡ n
⊴-both least least = refl
⊴-both (both-more p) (both-more q) = ap suc (⊴-both p q)

⊴-never : {n : ℕ} → suc n ⊴ n → ⊥
⊴-never (both-more l) = ⊴-never l

⊴-either : (m n : ℕ) → (m ⊴ n) ⊎ (suc n ⊴ m)
⊴-either zero n = inl least
⊴-either (suc m) zero = inr (both-more least)
⊴-either (suc m) (suc n) = up (⊴-either m n) where
  up : (m ⊴ n) ⊎ (suc n ⊴ m) → (suc m ⊴ suc n) ⊎ (suc (suc n) ⊴ suc m)
  up (inl l) = inl (both-more l)
  up (inr l) = inr (both-more l)

+-zero : (a : ℕ) → a + 0 ≡ a
+-zero zero = refl
+-zero (suc a) = ap suc (+-zero a)

+-suc : (a b : ℕ) → a + suc b ≡ suc (a + b)
+-suc zero b = refl
+-suc (suc a) b = ap suc (+-suc a b)

+-comm : (a b : ℕ) → a + b ≡ b + a
+-comm zero b = sym (+-zero b)
+-comm (suc a) b = ap suc (+-comm a b) ∙ sym (+-suc b a)

+-assoc : (a b c : ℕ) → (a + b) + c ≡ a + (b + c)
+-assoc zero b c = refl
+-assoc (suc a) b c = ap suc (+-assoc a b c)

+-swap : (a b c d : ℕ) → (a + b) + (c + d) ≡ (a + c) + (b + d)
+-swap a b c d =
  +-assoc a b (c + d) ∙ ap (a +_) (sym (+-assoc b c d) ∙ ap (_+ d) (+-comm b c) ∙ +-assoc c b d) ∙ sym (+-assoc a c (b + d))

+-both : {a b c d : ℕ} → a ≡ b → c ≡ d → a + c ≡ b + d
+-both refl refl = refl

*-zero : (k : ℕ) → k * 0 ≡ 0
*-zero zero = refl
*-zero (suc k) = *-zero k

*-sum : (k a b : ℕ) → k * (a + b) ≡ k * a + k * b
*-sum zero a b = refl
*-sum (suc k) a b = ap ((a + b) +_) (*-sum k a b) ∙ +-swap a b (k * a) (k * b)

sum-* : (a b x : ℕ) → (a + b) * x ≡ a * x + b * x
sum-* zero b x = refl
sum-* (suc a) b x = ap (x +_) (sum-* a b x) ∙ sym (+-assoc x (a * x) (b * x))

*-assoc : (k c x : ℕ) → (k * c) * x ≡ k * (c * x)
*-assoc zero c x = refl
*-assoc (suc k) c x = sum-* c (k * c) x ∙ ap ((c * x) +_) (*-assoc k c x)

-- ---- sums of multiples of atoms. The first coefficient is of the number 1

data Sum : Set where
  number : ℕ → Sum
  atom : ℕ → Sum
  _⊕_ : Sum → Sum → Sum
  _⊛_ : ℕ → Sum → Sum

nth-or : ℕ → List ℕ → ℕ → ℕ
nth-or n [] i = n
nth-or n (x ∷ xs) zero = x
nth-or n (x ∷ xs) (suc i) = nth-or n xs i

value : List ℕ → Sum → ℕ
value ρ (number n) = n
value ρ (atom i) = nth-or 0 ρ i
value ρ (a ⊕ b) = value ρ a + value ρ b
value ρ (k ⊛ a) = k * value ρ a

dot : List ℕ → List ℕ → ℕ
dot [] ρ = 0
dot (c ∷ cs) [] = 0
dot (c ∷ cs) (x ∷ ρ) = c * x + dot cs ρ

added : List ℕ → List ℕ → List ℕ
added [] ys = ys
added (x ∷ xs) [] = x ∷ xs
added (x ∷ xs) (y ∷ ys) = (x + y) ∷ added xs ys

scaled : ℕ → List ℕ → List ℕ
scaled k [] = []
scaled k (x ∷ xs) = (k * x) ∷ scaled k xs

unit : ℕ → List ℕ
unit zero = 1 ∷ []
unit (suc i) = 0 ∷ unit i

coefficients : Sum → List ℕ
coefficients (number n) = n ∷ []
coefficients (atom i) = 0 ∷ unit i
coefficients (a ⊕ b) = added (coefficients a) (coefficients b)
coefficients (k ⊛ a) = scaled k (coefficients a)

dot-added : (xs ys ρ : List ℕ) → dot (added xs ys) ρ ≡ dot xs ρ + dot ys ρ
dot-added [] ys ρ = refl
dot-added (x ∷ xs) [] ρ = sym (+-zero (dot (x ∷ xs) ρ))
dot-added (x ∷ xs) (y ∷ ys) [] = refl
dot-added (x ∷ xs) (y ∷ ys) (r ∷ ρ) =
  +-both (sum-* x y r) (dot-added xs ys ρ) ∙ +-swap (x * r) (y * r) (dot xs ρ) (dot ys ρ)

dot-scaled : (k : ℕ) (xs ρ : List ℕ) → dot (scaled k xs) ρ ≡ k * dot xs ρ
dot-scaled k [] ρ = sym (*-zero k)
dot-scaled k (x ∷ xs) [] = sym (*-zero k)
dot-scaled k (x ∷ xs) (r ∷ ρ) = +-both (*-assoc k x r) (dot-scaled k xs ρ) ∙ sym (*-sum k (x * r) (dot xs ρ))

dot-unit : (i : ℕ) (ρ : List ℕ) → dot (unit i) ρ ≡ nth-or 0 ρ i
dot-unit zero [] = refl
dot-unit zero (r ∷ ρ) = +-zero (r + 0) ∙ +-zero r
dot-unit (suc i) [] = refl
dot-unit (suc i) (r ∷ ρ) = dot-unit i ρ

of-coefficients : (ρ : List ℕ) (a : Sum) → dot (coefficients a) (1 ∷ ρ) ≡ value ρ a
of-coefficients ρ (number n) = +-zero (n * 1) ∙ one n where
  one : (n : ℕ) → n * 1 ≡ n
  one zero = refl
  one (suc n) = ap suc (one n)
of-coefficients ρ (atom i) = dot-unit i ρ
of-coefficients ρ (a ⊕ b) =
  dot-added (coefficients a) (coefficients b) (1 ∷ ρ) ∙ +-both (of-coefficients ρ a) (of-coefficients ρ b)
of-coefficients ρ (k ⊛ a) = dot-scaled k (coefficients a) (1 ∷ ρ) ∙ ap (k *_) (of-coefficients ρ a)

all-least : List ℕ → List ℕ → Bool
all-least [] ys = true
all-least (x ∷ xs) [] = (x == 0) && all-least xs []
all-least (x ∷ xs) (y ∷ ys) = nat-lt x (suc y) && all-least xs ys

dot-least : (xs ys ρ : List ℕ) → all-least xs ys ≡ true → dot xs ρ ⊴ dot ys ρ
dot-least [] ys ρ e = least
dot-least (x ∷ xs) [] [] e = least
dot-least (x ∷ xs) [] (r ∷ ρ) e = ⊴-trans (⊴-sum (⊴-times r (⊴-equal (eqb-true x 0 (t .#0)))) (dot-least xs [] ρ (t .#1))) (⊴-equal (nothing ρ)) where
  t : Sig2 ((x == 0) ≡ true) (λ _ → all-least xs [] ≡ true)
  t = and-parts (x == 0) (all-least xs []) e
  nothing : (ρ : List ℕ) → dot [] ρ ≡ 0
  nothing ρ = refl
dot-least (x ∷ xs) (y ∷ ys) [] e = least
dot-least (x ∷ xs) (y ∷ ys) (r ∷ ρ) e =
  ⊴-sum (⊴-times r (inside x y (t .#0))) (dot-least xs ys ρ (t .#1)) where
  t : Sig2 (nat-lt x (suc y) ≡ true) (λ _ → all-least xs ys ≡ true)
  t = and-parts (nat-lt x (suc y)) (all-least xs ys) e

-- ---- facts, and multipliers that refute them. Of an equation it may be so often one side and so often the other

data Fact : Set where
  _⊑_ _≗_ : Sum → Sum → Fact

record Entry : Set where
  constructor _⊖_
  field
    plus minus : ℕ
open Entry

True : List ℕ → Fact → Set
True ρ (a ⊑ b) = value ρ a ⊴ value ρ b
True ρ (a ≗ b) = value ρ a ≡ value ρ b

AllTrue : List ℕ → List Fact → Set
AllTrue ρ [] = ⊤
AllTrue ρ (f ∷ fs) = Sig2 (True ρ f) (λ _ → AllTrue ρ fs)

-- the side of a fact that is less, so often, and the other one
less-of more-of : Fact → Entry → Sum
less-of (a ⊑ b) (p ⊖ m) = p ⊛ a
less-of (a ≗ b) (p ⊖ m) = (p ⊛ a) ⊕ (m ⊛ b)
more-of (a ⊑ b) (p ⊖ m) = p ⊛ b
more-of (a ≗ b) (p ⊖ m) = (p ⊛ b) ⊕ (m ⊛ a)

less more : List Fact → List Entry → Sum
less [] es = number 0
less (f ∷ fs) [] = number 0
less (f ∷ fs) (e ∷ es) = less-of f e ⊕ less fs es
more [] es = number 0
more (f ∷ fs) [] = number 0
more (f ∷ fs) (e ∷ es) = more-of f e ⊕ more fs es

one-sum : (ρ : List ℕ) (f : Fact) (e : Entry) → True ρ f → value ρ (less-of f e) ⊴ value ρ (more-of f e)
one-sum ρ (a ⊑ b) (p ⊖ m) t = ⊴-scale p t
one-sum ρ (a ≗ b) (p ⊖ m) t = ⊴-sum (⊴-scale p (⊴-equal t)) (⊴-scale m (⊴-equal (sym t)))

all-sums : (ρ : List ℕ) (fs : List Fact) (es : List Entry) → AllTrue ρ fs → value ρ (less fs es) ⊴ value ρ (more fs es)
all-sums ρ [] es t = least
all-sums ρ (f ∷ fs) [] t = least
all-sums ρ (f ∷ fs) (e ∷ es) (t2 t ts) = ⊴-sum (one-sum ρ f e t) (all-sums ρ fs es ts)

refutes : List Fact → List Entry → Bool
refutes fs es = all-least (coefficients (number 1 ⊕ more fs es)) (coefficients (less fs es))

refuted : (ρ : List ℕ) (fs : List Fact) (es : List Entry) → refutes fs es ≡ true → AllTrue ρ fs → ⊥
refuted ρ fs es e t = ⊴-never
  (⊴-trans (⊴-equal (sym (of-coefficients ρ (number 1 ⊕ more fs es))))
  (⊴-trans (dot-least (coefficients (number 1 ⊕ more fs es)) (coefficients (less fs es)) (1 ∷ ρ) e)
  (⊴-trans (⊴-equal (of-coefficients ρ (less fs es))) (all-sums ρ fs es t))))

-- ---- the search: rows are sums that are at most 0, or equations with 0, behind them how often each fact was taken

Row : Set
Row = List Entry

entry : Row → ℕ → Entry
entry [] j = 0 ⊖ 0
entry (e ∷ es) zero = e
entry (e ∷ es) (suc j) = entry es j

small : ℕ → ℕ → Entry
small p m = (p - m) ⊖ (m - p)

turned : Row → Row
turned [] = []
turned ((p ⊖ m) ∷ es) = (m ⊖ p) ∷ turned es

-- a times a row and b times another
combined : ℕ → Row → ℕ → Row → Row
combined a [] b [] = []
combined a [] b ((p ⊖ m) ∷ fs) = ((b * p) ⊖ (b * m)) ∷ combined a [] b fs
combined a ((p ⊖ m) ∷ es) b [] = ((a * p) ⊖ (a * m)) ∷ combined a es b []
combined a ((p ⊖ m) ∷ es) b ((q ⊖ n) ∷ fs) = small (a * p + b * q) (a * m + b * n) ∷ combined a es b fs

is-plus is-minus : Entry → Bool
is-plus (p ⊖ m) = nat-lt m p
is-minus (p ⊖ m) = nat-lt p m

size : Entry → ℕ
size (p ⊖ m) = (p - m) + (m - p)

chosen : {A : Set} → (A → Bool) → List A → List A
chosen test [] = []
chosen test (x ∷ xs) = if test x then x ∷ chosen test xs else chosen test xs

each : {A B : Set} → (A → B) → List A → List B
each f [] = []
each f (x ∷ xs) = f x ∷ each f xs

-- without column j, by an equation that has it
cleared : ℕ → Row → Row → Row
cleared j by row =
  if size (entry row j) == 0 then row
  else combined (size (entry by j)) row (size (entry row j)) (if is-plus (entry by j) && is-plus (entry row j) || is-minus (entry by j) && is-minus (entry row j) then turned by else by)

record System : Set where
  constructor system
  field
    equations rows : List Row

-- the first equation that has column j, and the others
picked : ℕ → List Row → List Row → Option (Sig2 Row (λ _ → List Row))
picked j before [] = None
picked j before (r ∷ rs) = if size (entry r j) == 0 then picked j (r ∷ before) rs else Some (t2 r (before ++ rs))

by-equations : ℕ → ℕ → System → System
by-equations zero j s = s
by-equations (suc n) j (system es rs) = next (picked j [] es) where
  next : Option (Sig2 Row (λ _ → List Row)) → System
  next None = by-equations n (suc j) (system es rs)
  next (Some (t2 by others)) = by-equations n (suc j) (system (each (cleared j by) others) (each (cleared j by) rs))

pairs : ℕ → List Row → List Row → List Row
pairs j [] ms = []
pairs j (p ∷ ps) ms = each (λ m → combined (size (entry m j)) p (size (entry p j)) m) ms ++ pairs j ps ms

by-pairs : ℕ → ℕ → List Row → List Row
by-pairs zero j rs = rs
by-pairs (suc n) j rs =
  by-pairs n (suc j) (pairs j ps (chosen (λ r → is-minus (entry r j)) rs) ++ (ps ++ chosen (λ r → size (entry r j) == 0) rs)) where
  ps : List Row
  ps = chosen (λ r → is-plus (entry r j)) rs

none-minus : ℕ → Row → Bool
none-minus zero es = true
none-minus (suc n) [] = true
none-minus (suc n) (e ∷ es) = not (is-minus e) && none-minus n es

rest : ℕ → Row → Row
rest zero es = es
rest (suc n) [] = []
rest (suc n) (e ∷ es) = rest n es

-- what the first row gives that is a number above 0
found : ℕ → List Row → Option (List Entry)
found n [] = None
found n (r ∷ rs) = if is-plus (entry r 0) && none-minus (suc n) r then Some (rest (suc n) r) else found n rs

difference : List ℕ → List ℕ → ℕ → Row
difference xs ys zero = []
difference [] [] (suc n) = (0 ⊖ 0) ∷ difference [] [] n
difference (x ∷ xs) [] (suc n) = (x ⊖ 0) ∷ difference xs [] n
difference [] (y ∷ ys) (suc n) = (0 ⊖ y) ∷ difference [] ys n
difference (x ∷ xs) (y ∷ ys) (suc n) = small x y ∷ difference xs ys n

mark : ℕ → Row
mark zero = (1 ⊖ 0) ∷ []
mark (suc i) = (0 ⊖ 0) ∷ mark i

begun : ℕ → ℕ → List Fact → System
begun n i [] = system [] []
begun n i ((a ⊑ b) ∷ fs) = with-row (begun n (suc i) fs) where
  with-row : System → System
  with-row (system es rs) = system es ((difference (coefficients a) (coefficients b) (suc n) ++ mark i) ∷ rs)
begun n i ((a ≗ b) ∷ fs) = with-row (begun n (suc i) fs) where
  with-row : System → System
  with-row (system es rs) = system ((difference (coefficients a) (coefficients b) (suc n) ++ mark i) ∷ es) rs

-- multipliers for facts of so many atoms
searched : ℕ → List Fact → Option (List Entry)
searched n fs = last (by-equations n 1 (begun n 0 fs)) where
  last : System → Option (List Entry)
  last (system es rs) = found n (es ++ (each turned es ++ by-pairs n 1 rs))

-- ---- facts of which one of two lists holds

record Fork : Set where
  constructor _or_
  field
    one other : List Fact

AllForks : List ℕ → List Fork → Set
AllForks ρ [] = ⊤
AllForks ρ ((a or b) ∷ ds) = Sig2 (AllTrue ρ a ⊎ AllTrue ρ b) (λ _ → AllForks ρ ds)

mutual
  impossible : ℕ → List Fact → List Fork → Bool
  impossible n fs ds = by-multipliers n fs ds (searched n fs)

  by-multipliers : ℕ → List Fact → List Fork → Option (List Entry) → Bool
  by-multipliers n fs ds (Some es) = refutes fs es
  by-multipliers n fs [] None = false
  by-multipliers n fs ((a or b) ∷ ds) None = impossible n (a ++ fs) ds && impossible n (b ++ fs) ds

joined : (ρ : List ℕ) (a fs : List Fact) → AllTrue ρ a → AllTrue ρ fs → AllTrue ρ (a ++ fs)
joined ρ [] fs t u = u
joined ρ (f ∷ a) fs (t2 t ts) u = t2 t (joined ρ a fs ts u)

mutual
  never : (n : ℕ) (ρ : List ℕ) (fs : List Fact) (ds : List Fork) → impossible n fs ds ≡ true → AllTrue ρ fs → AllForks ρ ds → ⊥
  never n ρ fs ds e t u = never-by n ρ fs ds (searched n fs) e t u

  never-by : (n : ℕ) (ρ : List ℕ) (fs : List Fact) (ds : List Fork) (o : Option (List Entry)) → by-multipliers n fs ds o ≡ true → AllTrue ρ fs → AllForks ρ ds → ⊥
  never-by n ρ fs ds (Some es) e t u = refuted ρ fs es e t
  never-by n ρ fs ((a or b) ∷ ds) None e t (t2 (inl x) u) =
    never n ρ (a ++ fs) ds (and-parts (impossible n (a ++ fs) ds) (impossible n (b ++ fs) ds) e .#0) (joined ρ a fs x t) u
  never-by n ρ fs ((a or b) ∷ ds) None e t (t2 (inr x) u) =
    never n ρ (b ++ fs) ds (and-parts (impossible n (a ++ fs) ds) (impossible n (b ++ fs) ds) e .#1) (joined ρ b fs x t) u

at-most : (n : ℕ) (ρ : List ℕ) (fs : List Fact) (ds : List Fork) (a b : Sum) → impossible n ((number 1 ⊕ b ⊑ a) ∷ fs) ds ≡ true
  → AllTrue ρ fs → AllForks ρ ds → value ρ a ⊴ value ρ b
at-most n ρ fs ds a b e t u = by (⊴-either (value ρ a) (value ρ b)) where
  by : (value ρ a ⊴ value ρ b) ⊎ (suc (value ρ b) ⊴ value ρ a) → value ρ a ⊴ value ρ b
  by (inl l) = l
  by (inr l) = absurd (never n ρ ((number 1 ⊕ b ⊑ a) ∷ fs) ds e (t2 l t) u)

equal : (n : ℕ) (ρ : List ℕ) (fs : List Fact) (ds : List Fork) (a b : Sum)
  → (impossible n ((number 1 ⊕ b ⊑ a) ∷ fs) ds && impossible n ((number 1 ⊕ a ⊑ b) ∷ fs) ds) ≡ true
  → AllTrue ρ fs → AllForks ρ ds → value ρ a ≡ value ρ b
equal n ρ fs ds a b e t u = ⊴-both (at-most n ρ fs ds a b (p .#0) t u) (at-most n ρ fs ds b a (p .#1) t u) where
  p : Sig2 (impossible n ((number 1 ⊕ b ⊑ a) ∷ fs) ds ≡ true) (λ _ → impossible n ((number 1 ⊕ a ⊑ b) ∷ fs) ds ≡ true)
  p = and-parts (impossible n ((number 1 ⊕ b ⊑ a) ∷ fs) ds) (impossible n ((number 1 ⊕ a ⊑ b) ∷ fs) ds) e

-- what is and what isn't subtracted
monus : (a b : ℕ) → (Sig2 (a ⊴ b) (λ _ → a - b ≡ 0)) ⊎ (Sig2 (b ⊴ a) (λ _ → (a - b) + b ≡ a))
monus zero zero = inl (t2 least refl)
monus zero (suc b) = inl (t2 least refl)
monus (suc a) zero = inr (t2 least (+-zero (suc a)))
monus (suc a) (suc b) = up (monus a b) where
  up : (Sig2 (a ⊴ b) (λ _ → a - b ≡ 0)) ⊎ (Sig2 (b ⊴ a) (λ _ → (a - b) + b ≡ a))
    → (Sig2 (suc a ⊴ suc b) (λ _ → a - b ≡ 0)) ⊎ (Sig2 (suc b ⊴ suc a) (λ _ → (a - b) + suc b ≡ suc a))
  up (inl (t2 l e)) = inl (t2 (both-more l) e)
  up (inr (t2 l e)) = inr (t2 (both-more l) (+-suc (a - b) b ∙ ap suc e))

-- atom m is a - b
monus-fork : (ρ : List ℕ) (a b m : Sum) → value ρ m ≡ value ρ a - value ρ b
  → AllTrue ρ ((a ⊑ b) ∷ (m ≗ number 0) ∷ []) ⊎ AllTrue ρ ((b ⊑ a) ∷ (m ⊕ b ≗ a) ∷ [])
monus-fork ρ a b m e = by (monus (value ρ a) (value ρ b)) where
  by : (Sig2 (value ρ a ⊴ value ρ b) (λ _ → value ρ a - value ρ b ≡ 0)) ⊎ (Sig2 (value ρ b ⊴ value ρ a) (λ _ → (value ρ a - value ρ b) + value ρ b ≡ value ρ a))
    → AllTrue ρ ((a ⊑ b) ∷ (m ≗ number 0) ∷ []) ⊎ AllTrue ρ ((b ⊑ a) ∷ (m ⊕ b ≗ a) ∷ [])
  by (inl (t2 l q)) = inl (t2 l (t2 (e ∙ q) tt))
  by (inr (t2 l q)) = inr (t2 l (t2 (ap (_+ value ρ b) e ∙ q) tt))

-- ---- quotients. So much of a divisor was counted before, with what is left to count

quotient-bound : (q d m left counted : ℕ) → counted + left ≡ d → quotient q d m left * suc d ⊴ q * suc d + (counted + m)
quotient-bound q d zero left counted e =
  ⊴-trans (⊴-equal (sym (+-zero (q * suc d)))) (⊴-sum (⊴-refl (q * suc d)) least)
quotient-bound q d (suc m) zero counted e =
  ⊴-trans (quotient-bound (suc q) d m d 0 refl)
    (⊴-equal (ap suc (ap (_+ m) (+-comm d (q * suc d)) ∙ +-assoc (q * suc d) d m ∙ ap (λ n → q * suc d + (n + m)) (sym (sym (+-zero counted) ∙ e)))
      ∙ sym (+-suc (q * suc d) (counted + m)) ∙ ap (q * suc d +_) (sym (+-suc counted m))))
quotient-bound q d (suc m) (suc left) counted e =
  ⊴-trans (quotient-bound q d m left (suc counted) (sym (+-suc counted left) ∙ e)) (⊴-equal (ap (q * suc d +_) (sym (+-suc counted m))))

divided : (d m k : ℕ) → m ⊴ k * suc d → quotient 0 d m d ⊴ k
divided d m k l = by (⊴-either (quotient 0 d m d) k) where
  by : (quotient 0 d m d ⊴ k) ⊎ (suc k ⊴ quotient 0 d m d) → quotient 0 d m d ⊴ k
  by (inl less) = less
  by (inr more) = absurd (⊴-never (⊴-trans (both-more (⊴-after d (k * suc d)))
    (⊴-trans (⊴-times (suc d) more) (⊴-trans (quotient-bound 0 d m d 0 refl) l))))

-- a share of a counter is at most the whole of it (ncp_control)
share-le : (counter fraction : ℕ) → ((counter * min fraction 128) / 128) ≤ counter
share-le counter fraction =
  outside (divided 127 (counter * min fraction 128) counter (⊴-scale counter (inside (min fraction 128) 128 (min-le-right fraction 128)))) where
  min-le-right : (a b : ℕ) → min a b ≤ b
  min-le-right a b = by (nat-lt b a) refl where
    at-itself : (n : ℕ) → n ≤ n
    at-itself zero = refl
    at-itself (suc n) = at-itself n
    no-less : (m n : ℕ) → nat-lt m n ≡ false → n ≤ m
    no-less m zero e = refl
    no-less (suc m) (suc n) e = no-less m n e
    by : (v : Bool) → nat-lt b a ≡ v → (if v then b else a) ≤ b
    by true e = at-itself b
    by false e = no-less b a e
