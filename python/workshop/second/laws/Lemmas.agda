-- What the proofs of laws take from Rattle's library, proved anew. By hand.
{-# OPTIONS --safe #-}
module Lemmas where

open import Base
open import Words

infixr 30 _∙_

absurd : {A : Set} → ⊥ → A
absurd ()

sym : {A : Set} {x y : A} → x ≡ y → y ≡ x
sym refl = refl

_∙_ : {A : Set} {x y z : A} → x ≡ y → y ≡ z → x ≡ z
refl ∙ e = e

ap : {A B : Set} (f : A → B) {x y : A} → x ≡ y → f x ≡ f y
ap f refl = refl

subst : {A : Set} (P : A → Set) {x y : A} → x ≡ y → P x → P y
subst P refl p = p

-- ---- truth values

and-parts : (x y : Bool) → (x && y) ≡ true → Sig2 (x ≡ true) (λ _ → y ≡ true)
and-parts true y e = t2 refl e
and-parts false y ()

and-from : (x y : Bool) → x ≡ true → y ≡ true → (x && y) ≡ true
and-from true y p q = q

and-right : (x y : Bool) → y ≡ false → (x && y) ≡ false
and-right true y e = e
and-right false y e = refl

and-cases : (x y : Bool) → (x && y) ≡ false → (x ≡ false) ⊎ (y ≡ false)
and-cases true y e = inr e
and-cases false y e = inl refl

or-left : (x y : Bool) → x ≡ true → (x || y) ≡ true
or-left true y e = refl

or-parts : (x y : Bool) → (x || y) ≡ false → Sig2 (x ≡ false) (λ _ → y ≡ false)
or-parts false y e = t2 refl e

not-true : (b : Bool) → not b ≡ true → b ≡ false
not-true false e = refl

false-from-ne-true : (b : Bool) → (b ≡ true → ⊥) → b ≡ false
false-from-ne-true true h = absurd (h refl)
false-from-ne-true false h = refl

-- ---- tests of numbers

eq-eqb : (a b : ℕ) → a ≡ b → (a == b) ≡ true
eq-eqb zero .zero refl = refl
eq-eqb (suc a) .(suc a) refl = eq-eqb a a refl

eqb-true : (a b : ℕ) → (a == b) ≡ true → a ≡ b
eqb-true zero zero e = refl
eqb-true (suc a) (suc b) e = ap suc (eqb-true a b e)

ne-eqb : (a b : ℕ) → (a ≡ b → ⊥) → (a == b) ≡ false
ne-eqb a b other = false-from-ne-true (a == b) (λ e → other (eqb-true a b e))

leb-true le-leb : (a b : ℕ) → a ≤ b → a ≤ b
leb-true a b l = l
le-leb a b l = l

ltb-true lt-ltb : (a b : ℕ) → a < b → a < b
ltb-true a b l = l
lt-ltb a b l = l

eq-or-lt-of-le : {n m : ℕ} → n ≤ m → (n ≡ m) ⊎ (n < m)
eq-or-lt-of-le {n} {m} l = by n m l where
  up : {n m : ℕ} → (n ≡ m) ⊎ (n < m) → (suc n ≡ suc m) ⊎ (suc n < suc m)
  up (inl e) = inl (ap suc e)
  up (inr less) = inr less
  by : (n m : ℕ) → n ≤ m → (n ≡ m) ⊎ (n < m)
  by zero zero l = inl refl
  by zero (suc m) l = inr refl
  by (suc n) (suc m) l = up {n} {m} (by n m l)
  by (suc n) zero ()

-- ---- lists, and what may be there

same-Some : {A : Set} (x y : A) → Some x ≡ Some y → x ≡ y
same-Some x .x refl = refl

append-nil : {A : Set} (xs : List A) → (xs ++ []) ≡ xs
append-nil [] = refl
append-nil (x ∷ xs) = ap (x ∷_) (append-nil xs)

append-assoc : {A : Set} (xs ys zs : List A) → ((xs ++ ys) ++ zs) ≡ (xs ++ (ys ++ zs))
append-assoc [] ys zs = refl
append-assoc (x ∷ xs) ys zs = ap (x ∷_) (append-assoc xs ys zs)

length-append : {A : Set} (xs ys : List A) → length (xs ++ ys) ≡ (length xs + length ys)
length-append [] ys = refl
length-append (x ∷ xs) ys = ap suc (length-append xs ys)

-- ---- the lesser of two, and quotients

min-le-left : (a b : ℕ) → min a b ≤ a
min-le-left a b = by (nat-lt b a) refl where
  at-itself : (n : ℕ) → n ≤ n
  at-itself zero = refl
  at-itself (suc n) = at-itself n
  later : (m n : ℕ) → nat-lt m n ≡ true → m ≤ n
  later zero n e = refl
  later (suc m) (suc n) e = later m n e
  by : (v : Bool) → nat-lt b a ≡ v → (if v then b else a) ≤ a
  by true e = later b a e
  by false e = at-itself a

min-eq-left : {m n : ℕ} → m ≤ n → min m n ≡ m
min-eq-left {m} {n} l = by (nat-lt n m) refl where
  both : (m n : ℕ) → m ≤ n → nat-lt n m ≡ true → ⊥
  both (suc m) (suc n) l e = both m n l e
  both zero n l ()
  by : (v : Bool) → nat-lt n m ≡ v → (if v then n else m) ≡ m
  by true e = absurd (both m n l e)
  by false e = refl
