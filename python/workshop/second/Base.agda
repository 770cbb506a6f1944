-- What is built into the language of definitions: numbers, truth values, lists, equality, and products. By hand, and read by nobody else.
{-# OPTIONS --safe #-}
module Base where

open import Agda.Builtin.Nat public using (zero; suc; _+_; _*_; _-_; _==_) renaming (Nat to ℕ; _<_ to nat-lt)
open import Agda.Builtin.Bool public using (Bool; true; false)
open import Agda.Builtin.List public using (List; []; _∷_)
open import Agda.Builtin.Equality public using (_≡_; refl)
open import Agda.Builtin.Unit public using (⊤; tt)

infixr 1 _⊎_
infix 4 _≢_ _<_ _≤_
infixr 5 _++_
infixr 30 _||_
infixr 35 _&&_

data ⊥ : Set where

data _⊎_ (A B : Set) : Set where
  inl : A → A ⊎ B
  inr : B → A ⊎ B

_≢_ : {A : Set} → A → A → Set
x ≢ y = x ≡ y → ⊥

data Option (A : Set) : Set where
  None : Option A
  Some : A → Option A

data Result (A E : Set) : Set where
  Ok : A → Result A E
  Err : E → Result A E

_<_ _≤_ : ℕ → ℕ → Set
m < n = nat-lt m n ≡ true
m ≤ n = nat-lt m (suc n) ≡ true

_&&_ _||_ : Bool → Bool → Bool
true && b = b
false && b = false
true || b = true
false || b = b

if_then_else_ : {A : Set} → Bool → A → A → A
if true then a else b = a
if false then a else b = b

_++_ : {A : Set} → List A → List A → List A
[] ++ ys = ys
(x ∷ xs) ++ ys = x ∷ (xs ++ ys)

-- the quotient and the remainder of m by d, with what is left to count before the next step
quotient remainder : ℕ → ℕ → ℕ → ℕ → ℕ
quotient q d zero left = q
quotient q d (suc m) zero = quotient (suc q) d m d
quotient q d (suc m) (suc left) = quotient q d m left
remainder r d zero left = r
remainder r d (suc m) zero = remainder zero d m d
remainder r d (suc m) (suc left) = remainder (suc r) d m left

-- by 0 the quotient is 0, and all is left
_/_ _%_ : ℕ → ℕ → ℕ
m / zero = zero
m / suc d = quotient zero d m d
m % zero = m
m % suc d = remainder zero d m d

record Sig2 (A : Set) (B : A → Set) : Set where
  constructor t2
  field
    #0 : A
    #1 : B #0
open Sig2 public

record Sig3 (A : Set) (B : A → Set) (C : (a : A) → B a → Set) : Set where
  constructor t3
  field
    #0 : A
    #1 : B #0
    #2 : C #0 #1
open Sig3 public

record Sig4 (A : Set) (B : A → Set) (C : (a : A) → B a → Set) (D : (a : A) (b : B a) → C a b → Set) : Set where
  constructor t4
  field
    #0 : A
    #1 : B #0
    #2 : C #0 #1
    #3 : D #0 #1 #2
open Sig4 public

-- a value to be looked at by its forms, a fact with a name, and a function that a macro makes
of- : {A B : Set} → A → (A → B) → B
of- x f = f x

by- : {A B : Set} → (A → B) → A → B
by- f x = f x

itself : {A : Set} → A → A
itself x = x
