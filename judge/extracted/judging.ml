
(** val negb : bool -> bool **)

let negb = function
| true -> false
| false -> true

type nat =
| O
| S of nat

(** val option_map : ('a1 -> 'a2) -> 'a1 option -> 'a2 option **)

let option_map f = function
| Some a -> Some (f a)
| None -> None

(** val fst : ('a1 * 'a2) -> 'a1 **)

let fst = function
| (x, _) -> x

(** val snd : ('a1 * 'a2) -> 'a2 **)

let snd = function
| (_, y) -> y

(** val length : 'a1 list -> nat **)

let rec length = function
| [] -> O
| _ :: l' -> S (length l')

(** val app : 'a1 list -> 'a1 list -> 'a1 list **)

let rec app l m =
  match l with
  | [] -> m
  | a :: l1 -> a :: (app l1 m)

type comparison =
| Eq
| Lt
| Gt

(** val compOpp : comparison -> comparison **)

let compOpp = function
| Eq -> Eq
| Lt -> Gt
| Gt -> Lt

module Coq__1 = struct
 (** val add : nat -> nat -> nat **)
 let rec add n0 m =
   match n0 with
   | O -> m
   | S p -> S (add p m)
end
include Coq__1

(** val mul : nat -> nat -> nat **)

let rec mul n0 m =
  match n0 with
  | O -> O
  | S p -> add m (mul p m)

(** val sub : nat -> nat -> nat **)

let rec sub n0 m =
  match n0 with
  | O -> n0
  | S k -> (match m with
            | O -> n0
            | S l -> sub k l)

(** val max : nat -> nat -> nat **)

let rec max n0 m =
  match n0 with
  | O -> m
  | S n' -> (match m with
             | O -> n0
             | S m' -> S (max n' m'))

(** val min : nat -> nat -> nat **)

let rec min n0 m =
  match n0 with
  | O -> O
  | S n' -> (match m with
             | O -> O
             | S m' -> S (min n' m'))

type positive =
| XI of positive
| XO of positive
| XH

type n =
| N0
| Npos of positive

type z =
| Z0
| Zpos of positive
| Zneg of positive

module Nat =
 struct
  (** val eqb : nat -> nat -> bool **)

  let rec eqb n0 m =
    match n0 with
    | O -> (match m with
            | O -> true
            | S _ -> false)
    | S n' -> (match m with
               | O -> false
               | S m' -> eqb n' m')

  (** val leb : nat -> nat -> bool **)

  let rec leb n0 m =
    match n0 with
    | O -> true
    | S n' -> (match m with
               | O -> false
               | S m' -> leb n' m')

  (** val ltb : nat -> nat -> bool **)

  let ltb n0 m =
    leb (S n0) m

  (** val iter : nat -> ('a1 -> 'a1) -> 'a1 -> 'a1 **)

  let rec iter n0 f x =
    match n0 with
    | O -> x
    | S n1 -> f (iter n1 f x)

  (** val eq_dec : nat -> nat -> bool **)

  let rec eq_dec n0 m =
    match n0 with
    | O -> (match m with
            | O -> true
            | S _ -> false)
    | S n1 -> (match m with
               | O -> false
               | S n2 -> eq_dec n1 n2)
 end

module Pos =
 struct
  type mask =
  | IsNul
  | IsPos of positive
  | IsNeg
 end

module Coq_Pos =
 struct
  (** val succ : positive -> positive **)

  let rec succ = function
  | XI p -> XO (succ p)
  | XO p -> XI p
  | XH -> XO XH

  (** val add : positive -> positive -> positive **)

  let rec add x y =
    match x with
    | XI p ->
      (match y with
       | XI q -> XO (add_carry p q)
       | XO q -> XI (add p q)
       | XH -> XO (succ p))
    | XO p ->
      (match y with
       | XI q -> XI (add p q)
       | XO q -> XO (add p q)
       | XH -> XI p)
    | XH -> (match y with
             | XI q -> XO (succ q)
             | XO q -> XI q
             | XH -> XO XH)

  (** val add_carry : positive -> positive -> positive **)

  and add_carry x y =
    match x with
    | XI p ->
      (match y with
       | XI q -> XI (add_carry p q)
       | XO q -> XO (add_carry p q)
       | XH -> XI (succ p))
    | XO p ->
      (match y with
       | XI q -> XO (add_carry p q)
       | XO q -> XI (add p q)
       | XH -> XO (succ p))
    | XH ->
      (match y with
       | XI q -> XI (succ q)
       | XO q -> XO (succ q)
       | XH -> XI XH)

  (** val pred_double : positive -> positive **)

  let rec pred_double = function
  | XI p -> XI (XO p)
  | XO p -> XI (pred_double p)
  | XH -> XH

  (** val pred_N : positive -> n **)

  let pred_N = function
  | XI p -> Npos (XO p)
  | XO p -> Npos (pred_double p)
  | XH -> N0

  type mask = Pos.mask =
  | IsNul
  | IsPos of positive
  | IsNeg

  (** val succ_double_mask : mask -> mask **)

  let succ_double_mask = function
  | IsNul -> IsPos XH
  | IsPos p -> IsPos (XI p)
  | IsNeg -> IsNeg

  (** val double_mask : mask -> mask **)

  let double_mask = function
  | IsPos p -> IsPos (XO p)
  | x0 -> x0

  (** val double_pred_mask : positive -> mask **)

  let double_pred_mask = function
  | XI p -> IsPos (XO (XO p))
  | XO p -> IsPos (XO (pred_double p))
  | XH -> IsNul

  (** val sub_mask : positive -> positive -> mask **)

  let rec sub_mask x y =
    match x with
    | XI p ->
      (match y with
       | XI q -> double_mask (sub_mask p q)
       | XO q -> succ_double_mask (sub_mask p q)
       | XH -> IsPos (XO p))
    | XO p ->
      (match y with
       | XI q -> succ_double_mask (sub_mask_carry p q)
       | XO q -> double_mask (sub_mask p q)
       | XH -> IsPos (pred_double p))
    | XH -> (match y with
             | XH -> IsNul
             | _ -> IsNeg)

  (** val sub_mask_carry : positive -> positive -> mask **)

  and sub_mask_carry x y =
    match x with
    | XI p ->
      (match y with
       | XI q -> succ_double_mask (sub_mask_carry p q)
       | XO q -> double_mask (sub_mask p q)
       | XH -> IsPos (pred_double p))
    | XO p ->
      (match y with
       | XI q -> double_mask (sub_mask_carry p q)
       | XO q -> succ_double_mask (sub_mask_carry p q)
       | XH -> double_pred_mask p)
    | XH -> IsNeg

  (** val mul : positive -> positive -> positive **)

  let rec mul x y =
    match x with
    | XI p -> add y (XO (mul p y))
    | XO p -> XO (mul p y)
    | XH -> y

  (** val iter : ('a1 -> 'a1) -> 'a1 -> positive -> 'a1 **)

  let rec iter f x = function
  | XI n' -> f (iter f (iter f x n') n')
  | XO n' -> iter f (iter f x n') n'
  | XH -> f x

  (** val compare_cont : comparison -> positive -> positive -> comparison **)

  let rec compare_cont r x y =
    match x with
    | XI p ->
      (match y with
       | XI q -> compare_cont r p q
       | XO q -> compare_cont Gt p q
       | XH -> Gt)
    | XO p ->
      (match y with
       | XI q -> compare_cont Lt p q
       | XO q -> compare_cont r p q
       | XH -> Gt)
    | XH -> (match y with
             | XH -> r
             | _ -> Lt)

  (** val compare : positive -> positive -> comparison **)

  let compare =
    compare_cont Eq

  (** val eqb : positive -> positive -> bool **)

  let rec eqb p q =
    match p with
    | XI p0 -> (match q with
                | XI q0 -> eqb p0 q0
                | _ -> false)
    | XO p0 -> (match q with
                | XO q0 -> eqb p0 q0
                | _ -> false)
    | XH -> (match q with
             | XH -> true
             | _ -> false)

  (** val coq_Nsucc_double : n -> n **)

  let coq_Nsucc_double = function
  | N0 -> Npos XH
  | Npos p -> Npos (XI p)

  (** val coq_Ndouble : n -> n **)

  let coq_Ndouble = function
  | N0 -> N0
  | Npos p -> Npos (XO p)

  (** val coq_lor : positive -> positive -> positive **)

  let rec coq_lor p q =
    match p with
    | XI p0 ->
      (match q with
       | XI q0 -> XI (coq_lor p0 q0)
       | XO q0 -> XI (coq_lor p0 q0)
       | XH -> p)
    | XO p0 ->
      (match q with
       | XI q0 -> XI (coq_lor p0 q0)
       | XO q0 -> XO (coq_lor p0 q0)
       | XH -> XI p0)
    | XH -> (match q with
             | XO q0 -> XI q0
             | _ -> q)

  (** val coq_land : positive -> positive -> n **)

  let rec coq_land p q =
    match p with
    | XI p0 ->
      (match q with
       | XI q0 -> coq_Nsucc_double (coq_land p0 q0)
       | XO q0 -> coq_Ndouble (coq_land p0 q0)
       | XH -> Npos XH)
    | XO p0 ->
      (match q with
       | XI q0 -> coq_Ndouble (coq_land p0 q0)
       | XO q0 -> coq_Ndouble (coq_land p0 q0)
       | XH -> N0)
    | XH -> (match q with
             | XO _ -> N0
             | _ -> Npos XH)

  (** val shiftl : positive -> n -> positive **)

  let shiftl p = function
  | N0 -> p
  | Npos n1 -> iter (fun x -> XO x) p n1

  (** val testbit : positive -> n -> bool **)

  let rec testbit p n0 =
    match p with
    | XI p0 -> (match n0 with
                | N0 -> true
                | Npos n1 -> testbit p0 (pred_N n1))
    | XO p0 -> (match n0 with
                | N0 -> false
                | Npos n1 -> testbit p0 (pred_N n1))
    | XH -> (match n0 with
             | N0 -> true
             | Npos _ -> false)

  (** val iter_op : ('a1 -> 'a1 -> 'a1) -> positive -> 'a1 -> 'a1 **)

  let rec iter_op op p a =
    match p with
    | XI p0 -> op a (iter_op op p0 (op a a))
    | XO p0 -> iter_op op p0 (op a a)
    | XH -> a

  (** val to_nat : positive -> nat **)

  let to_nat x =
    iter_op Coq__1.add x (S O)

  (** val of_succ_nat : nat -> positive **)

  let rec of_succ_nat = function
  | O -> XH
  | S x -> succ (of_succ_nat x)
 end

module N =
 struct
  (** val succ_double : n -> n **)

  let succ_double = function
  | N0 -> Npos XH
  | Npos p -> Npos (XI p)

  (** val double : n -> n **)

  let double = function
  | N0 -> N0
  | Npos p -> Npos (XO p)

  (** val succ : n -> n **)

  let succ = function
  | N0 -> Npos XH
  | Npos p -> Npos (Coq_Pos.succ p)

  (** val add : n -> n -> n **)

  let add n0 m =
    match n0 with
    | N0 -> m
    | Npos p -> (match m with
                 | N0 -> n0
                 | Npos q -> Npos (Coq_Pos.add p q))

  (** val sub : n -> n -> n **)

  let sub n0 m =
    match n0 with
    | N0 -> N0
    | Npos n' ->
      (match m with
       | N0 -> n0
       | Npos m' ->
         (match Coq_Pos.sub_mask n' m' with
          | Coq_Pos.IsPos p -> Npos p
          | _ -> N0))

  (** val mul : n -> n -> n **)

  let mul n0 m =
    match n0 with
    | N0 -> N0
    | Npos p -> (match m with
                 | N0 -> N0
                 | Npos q -> Npos (Coq_Pos.mul p q))

  (** val compare : n -> n -> comparison **)

  let compare n0 m =
    match n0 with
    | N0 -> (match m with
             | N0 -> Eq
             | Npos _ -> Lt)
    | Npos n' -> (match m with
                  | N0 -> Gt
                  | Npos m' -> Coq_Pos.compare n' m')

  (** val eqb : n -> n -> bool **)

  let eqb n0 m =
    match n0 with
    | N0 -> (match m with
             | N0 -> true
             | Npos _ -> false)
    | Npos p -> (match m with
                 | N0 -> false
                 | Npos q -> Coq_Pos.eqb p q)

  (** val leb : n -> n -> bool **)

  let leb x y =
    match compare x y with
    | Gt -> false
    | _ -> true

  (** val ltb : n -> n -> bool **)

  let ltb x y =
    match compare x y with
    | Lt -> true
    | _ -> false

  (** val pos_div_eucl : positive -> n -> n * n **)

  let rec pos_div_eucl a b =
    match a with
    | XI a' ->
      let (q, r) = pos_div_eucl a' b in
      let r' = succ_double r in
      if leb b r' then ((succ_double q), (sub r' b)) else ((double q), r')
    | XO a' ->
      let (q, r) = pos_div_eucl a' b in
      let r' = double r in
      if leb b r' then ((succ_double q), (sub r' b)) else ((double q), r')
    | XH ->
      (match b with
       | N0 -> (N0, (Npos XH))
       | Npos p -> (match p with
                    | XH -> ((Npos XH), N0)
                    | _ -> (N0, (Npos XH))))

  (** val coq_lor : n -> n -> n **)

  let coq_lor n0 m =
    match n0 with
    | N0 -> m
    | Npos p -> (match m with
                 | N0 -> n0
                 | Npos q -> Npos (Coq_Pos.coq_lor p q))

  (** val coq_land : n -> n -> n **)

  let coq_land n0 m =
    match n0 with
    | N0 -> N0
    | Npos p -> (match m with
                 | N0 -> N0
                 | Npos q -> Coq_Pos.coq_land p q)

  (** val shiftl : n -> n -> n **)

  let shiftl a n0 =
    match a with
    | N0 -> N0
    | Npos a0 -> Npos (Coq_Pos.shiftl a0 n0)

  (** val testbit : n -> n -> bool **)

  let testbit a n0 =
    match a with
    | N0 -> false
    | Npos p -> Coq_Pos.testbit p n0

  (** val to_nat : n -> nat **)

  let to_nat = function
  | N0 -> O
  | Npos p -> Coq_Pos.to_nat p

  (** val of_nat : nat -> n **)

  let of_nat = function
  | O -> N0
  | S n' -> Npos (Coq_Pos.of_succ_nat n')

  (** val setbit : n -> n -> n **)

  let setbit a n0 =
    coq_lor a (shiftl (Npos XH) n0)
 end

module Z =
 struct
  (** val double : z -> z **)

  let double = function
  | Z0 -> Z0
  | Zpos p -> Zpos (XO p)
  | Zneg p -> Zneg (XO p)

  (** val succ_double : z -> z **)

  let succ_double = function
  | Z0 -> Zpos XH
  | Zpos p -> Zpos (XI p)
  | Zneg p -> Zneg (Coq_Pos.pred_double p)

  (** val pred_double : z -> z **)

  let pred_double = function
  | Z0 -> Zneg XH
  | Zpos p -> Zpos (Coq_Pos.pred_double p)
  | Zneg p -> Zneg (XI p)

  (** val pos_sub : positive -> positive -> z **)

  let rec pos_sub x y =
    match x with
    | XI p ->
      (match y with
       | XI q -> double (pos_sub p q)
       | XO q -> succ_double (pos_sub p q)
       | XH -> Zpos (XO p))
    | XO p ->
      (match y with
       | XI q -> pred_double (pos_sub p q)
       | XO q -> double (pos_sub p q)
       | XH -> Zpos (Coq_Pos.pred_double p))
    | XH ->
      (match y with
       | XI q -> Zneg (XO q)
       | XO q -> Zneg (Coq_Pos.pred_double q)
       | XH -> Z0)

  (** val add : z -> z -> z **)

  let add x y =
    match x with
    | Z0 -> y
    | Zpos x' ->
      (match y with
       | Z0 -> x
       | Zpos y' -> Zpos (Coq_Pos.add x' y')
       | Zneg y' -> pos_sub x' y')
    | Zneg x' ->
      (match y with
       | Z0 -> x
       | Zpos y' -> pos_sub y' x'
       | Zneg y' -> Zneg (Coq_Pos.add x' y'))

  (** val opp : z -> z **)

  let opp = function
  | Z0 -> Z0
  | Zpos x0 -> Zneg x0
  | Zneg x0 -> Zpos x0

  (** val sub : z -> z -> z **)

  let sub m n0 =
    add m (opp n0)

  (** val mul : z -> z -> z **)

  let mul x y =
    match x with
    | Z0 -> Z0
    | Zpos x' ->
      (match y with
       | Z0 -> Z0
       | Zpos y' -> Zpos (Coq_Pos.mul x' y')
       | Zneg y' -> Zneg (Coq_Pos.mul x' y'))
    | Zneg x' ->
      (match y with
       | Z0 -> Z0
       | Zpos y' -> Zneg (Coq_Pos.mul x' y')
       | Zneg y' -> Zpos (Coq_Pos.mul x' y'))

  (** val compare : z -> z -> comparison **)

  let compare x y =
    match x with
    | Z0 -> (match y with
             | Z0 -> Eq
             | Zpos _ -> Lt
             | Zneg _ -> Gt)
    | Zpos x' -> (match y with
                  | Zpos y' -> Coq_Pos.compare x' y'
                  | _ -> Gt)
    | Zneg x' ->
      (match y with
       | Zneg y' -> compOpp (Coq_Pos.compare x' y')
       | _ -> Lt)

  (** val leb : z -> z -> bool **)

  let leb x y =
    match compare x y with
    | Gt -> false
    | _ -> true

  (** val ltb : z -> z -> bool **)

  let ltb x y =
    match compare x y with
    | Lt -> true
    | _ -> false

  (** val eqb : z -> z -> bool **)

  let eqb x y =
    match x with
    | Z0 -> (match y with
             | Z0 -> true
             | _ -> false)
    | Zpos p -> (match y with
                 | Zpos q -> Coq_Pos.eqb p q
                 | _ -> false)
    | Zneg p -> (match y with
                 | Zneg q -> Coq_Pos.eqb p q
                 | _ -> false)

  (** val of_N : n -> z **)

  let of_N = function
  | N0 -> Z0
  | Npos p -> Zpos p

  (** val pos_div_eucl : positive -> z -> z * z **)

  let rec pos_div_eucl a b =
    match a with
    | XI a' ->
      let (q, r) = pos_div_eucl a' b in
      let r' = add (mul (Zpos (XO XH)) r) (Zpos XH) in
      if ltb r' b
      then ((mul (Zpos (XO XH)) q), r')
      else ((add (mul (Zpos (XO XH)) q) (Zpos XH)), (sub r' b))
    | XO a' ->
      let (q, r) = pos_div_eucl a' b in
      let r' = mul (Zpos (XO XH)) r in
      if ltb r' b
      then ((mul (Zpos (XO XH)) q), r')
      else ((add (mul (Zpos (XO XH)) q) (Zpos XH)), (sub r' b))
    | XH -> if leb (Zpos (XO XH)) b then (Z0, (Zpos XH)) else ((Zpos XH), Z0)

  (** val div_eucl : z -> z -> z * z **)

  let div_eucl a b =
    match a with
    | Z0 -> (Z0, Z0)
    | Zpos a' ->
      (match b with
       | Z0 -> (Z0, a)
       | Zpos _ -> pos_div_eucl a' b
       | Zneg b' ->
         let (q, r) = pos_div_eucl a' (Zpos b') in
         (match r with
          | Z0 -> ((opp q), Z0)
          | _ -> ((opp (add q (Zpos XH))), (add b r))))
    | Zneg a' ->
      (match b with
       | Z0 -> (Z0, a)
       | Zpos _ ->
         let (q, r) = pos_div_eucl a' b in
         (match r with
          | Z0 -> ((opp q), Z0)
          | _ -> ((opp (add q (Zpos XH))), (sub b r)))
       | Zneg b' -> let (q, r) = pos_div_eucl a' (Zpos b') in (q, (opp r)))

  (** val div : z -> z -> z **)

  let div a b =
    let (q, _) = div_eucl a b in q

  (** val modulo : z -> z -> z **)

  let modulo a b =
    let (_, r) = div_eucl a b in r

  (** val quotrem : z -> z -> z * z **)

  let quotrem a b =
    match a with
    | Z0 -> (Z0, Z0)
    | Zpos a0 ->
      (match b with
       | Z0 -> (Z0, a)
       | Zpos b0 ->
         let (q, r) = N.pos_div_eucl a0 (Npos b0) in ((of_N q), (of_N r))
       | Zneg b0 ->
         let (q, r) = N.pos_div_eucl a0 (Npos b0) in
         ((opp (of_N q)), (of_N r)))
    | Zneg a0 ->
      (match b with
       | Z0 -> (Z0, a)
       | Zpos b0 ->
         let (q, r) = N.pos_div_eucl a0 (Npos b0) in
         ((opp (of_N q)), (opp (of_N r)))
       | Zneg b0 ->
         let (q, r) = N.pos_div_eucl a0 (Npos b0) in
         ((of_N q), (opp (of_N r))))

  (** val quot : z -> z -> z **)

  let quot a b =
    fst (quotrem a b)
 end

(** val hd : 'a1 -> 'a1 list -> 'a1 **)

let hd default = function
| [] -> default
| x :: _ -> x

(** val tl : 'a1 list -> 'a1 list **)

let tl = function
| [] -> []
| _ :: m -> m

(** val in_dec : ('a1 -> 'a1 -> bool) -> 'a1 -> 'a1 list -> bool **)

let rec in_dec h a = function
| [] -> false
| y :: l0 -> let s = h y a in if s then true else in_dec h a l0

(** val nth : nat -> 'a1 list -> 'a1 -> 'a1 **)

let rec nth n0 l default =
  match n0 with
  | O -> (match l with
          | [] -> default
          | x :: _ -> x)
  | S m -> (match l with
            | [] -> default
            | _ :: t0 -> nth m t0 default)

(** val nth_error : 'a1 list -> nat -> 'a1 option **)

let rec nth_error l = function
| O -> (match l with
        | [] -> None
        | x :: _ -> Some x)
| S n1 -> (match l with
           | [] -> None
           | _ :: l0 -> nth_error l0 n1)

(** val removelast : 'a1 list -> 'a1 list **)

let rec removelast = function
| [] -> []
| a :: l0 -> (match l0 with
              | [] -> []
              | _ :: _ -> a :: (removelast l0))

(** val rev_append : 'a1 list -> 'a1 list -> 'a1 list **)

let rec rev_append l l' =
  match l with
  | [] -> l'
  | a :: l0 -> rev_append l0 (a :: l')

(** val concat : 'a1 list list -> 'a1 list **)

let rec concat = function
| [] -> []
| x :: l0 -> app x (concat l0)

(** val list_eq_dec : ('a1 -> 'a1 -> bool) -> 'a1 list -> 'a1 list -> bool **)

let rec list_eq_dec eq_dec0 l l' =
  match l with
  | [] -> (match l' with
           | [] -> true
           | _ :: _ -> false)
  | y :: l0 ->
    (match l' with
     | [] -> false
     | a :: l1 -> if eq_dec0 y a then list_eq_dec eq_dec0 l0 l1 else false)

(** val map : ('a1 -> 'a2) -> 'a1 list -> 'a2 list **)

let rec map f = function
| [] -> []
| a :: t0 -> (f a) :: (map f t0)

(** val flat_map : ('a1 -> 'a2 list) -> 'a1 list -> 'a2 list **)

let rec flat_map f = function
| [] -> []
| x :: t0 -> app (f x) (flat_map f t0)

(** val fold_left : ('a1 -> 'a2 -> 'a1) -> 'a2 list -> 'a1 -> 'a1 **)

let rec fold_left f l a0 =
  match l with
  | [] -> a0
  | b :: t0 -> fold_left f t0 (f a0 b)

(** val existsb : ('a1 -> bool) -> 'a1 list -> bool **)

let rec existsb f = function
| [] -> false
| a :: l0 -> (||) (f a) (existsb f l0)

(** val forallb : ('a1 -> bool) -> 'a1 list -> bool **)

let rec forallb f = function
| [] -> true
| a :: l0 -> (&&) (f a) (forallb f l0)

(** val filter : ('a1 -> bool) -> 'a1 list -> 'a1 list **)

let rec filter f = function
| [] -> []
| x :: l0 -> if f x then x :: (filter f l0) else filter f l0

(** val find : ('a1 -> bool) -> 'a1 list -> 'a1 option **)

let rec find f = function
| [] -> None
| x :: tl0 -> if f x then Some x else find f tl0

(** val seq : nat -> nat -> nat list **)

let rec seq start = function
| O -> []
| S len0 -> start :: (seq (S start) len0)

(** val repeat : 'a1 -> nat -> 'a1 list **)

let rec repeat x = function
| O -> []
| S k -> x :: (repeat x k)

type symbol =
| Blank
| One

type direction =
| Left
| Right

type action = { write : symbol; move : direction; next : nat }

type machine = nat -> symbol -> action option

type zipper = { at_state : nat; left : symbol list; here : symbol;
                right : symbol list }

(** val blank_start : zipper **)

let blank_start =
  { at_state = O; left = []; here = Blank; right = [] }

(** val moved : zipper -> action -> zipper **)

let moved z0 a =
  match a.move with
  | Left ->
    { at_state = a.next; left = (tl z0.left); here = (hd Blank z0.left);
      right = (a.write :: z0.right) }
  | Right ->
    { at_state = a.next; left = (a.write :: z0.left); here =
      (hd Blank z0.right); right = (tl z0.right) }

(** val entry_at : machine -> zipper -> action option **)

let entry_at m z0 =
  m z0.at_state z0.here

(** val stepped : machine -> zipper -> zipper option **)

let stepped m z0 =
  match entry_at m z0 with
  | Some a -> Some (moved z0 a)
  | None -> None

(** val leap : ('a1 -> 'a1 option) -> positive -> 'a1 -> 'a1 option **)

let rec leap f p x =
  match p with
  | XI p0 ->
    (match f x with
     | Some y ->
       (match leap f p0 y with
        | Some z0 -> leap f p0 z0
        | None -> None)
     | None -> None)
  | XO p0 -> (match leap f p0 x with
              | Some y -> leap f p0 y
              | None -> None)
  | XH -> f x

(** val leap_N : ('a1 -> 'a1 option) -> n -> 'a1 -> 'a1 option **)

let leap_N f k x =
  match k with
  | N0 -> Some x
  | Npos p -> leap f p x

(** val opposite : direction -> direction **)

let opposite = function
| Left -> Right
| Right -> Left

(** val mirrored_action : action -> action **)

let mirrored_action a =
  { write = a.write; move = (opposite a.move); next = a.next }

(** val mirrored : machine -> machine **)

let mirrored m q s =
  option_map mirrored_action (m q s)

type entry = action option

type table = (entry * entry) list

(** val on_symbol : (entry * entry) -> symbol -> entry **)

let on_symbol row = function
| Blank -> fst row
| One -> snd row

(** val machine0 : table -> machine **)

let machine0 t0 q s =
  match nth_error t0 q with
  | Some row -> on_symbol row s
  | None -> None

(** val empty : nat -> table **)

let empty n0 =
  repeat (None, None) n0

(** val filled : table -> nat -> symbol -> action -> table **)

let rec filled t0 q s a =
  match t0 with
  | [] -> []
  | row :: t1 ->
    (match q with
     | O ->
       (match s with
        | Blank -> ((Some a), (snd row))
        | One -> ((fst row), (Some a))) :: t1
     | S q0 -> row :: (filled t1 q0 s a))

(** val is_full : table -> bool **)

let is_full t0 =
  forallb (fun row ->
    let (y, y0) = row in
    (match y with
     | Some _ -> (match y0 with
                  | Some _ -> true
                  | None -> false)
     | None -> false)) t0

(** val is_blank : table -> bool **)

let is_blank t0 =
  forallb (fun row ->
    let (y, y0) = row in
    (match y with
     | Some _ -> false
     | None -> (match y0 with
                | Some _ -> false
                | None -> true))) t0

(** val states_of : nat -> (entry * entry) -> nat **)

let states_of q = function
| (e, e0) ->
  (match e with
   | Some a ->
     (match e0 with
      | Some b -> S (max q (max a.next b.next))
      | None -> S (max q a.next))
   | None -> (match e0 with
              | Some a -> S (max q a.next)
              | None -> S O))

(** val used_from : nat -> table -> nat **)

let rec used_from q = function
| [] -> S O
| row :: t1 -> max (states_of q row) (used_from (S q) t1)

(** val used : table -> nat **)

let used t0 =
  used_from O t0

(** val children : nat -> table -> nat -> symbol -> table list **)

let children n0 t0 q s =
  if is_full (filled t0 q s { write = Blank; move = Right; next = O })
  then []
  else flat_map (fun w ->
         flat_map (fun d ->
           map (fun p -> filled t0 q s { write = w; move = d; next = p })
             (seq O (min n0 (S (used t0)))))
           (if is_blank t0 then Right :: [] else Left :: (Right :: [])))
         (Blank :: (One :: []))

(** val symbol_eq_dec : symbol -> symbol -> bool **)

let symbol_eq_dec s s' =
  match s with
  | Blank -> (match s' with
              | Blank -> true
              | One -> false)
  | One -> (match s' with
            | Blank -> false
            | One -> true)

type word = symbol list

(** val is_same : symbol -> symbol -> bool **)

let is_same s s' =
  match s with
  | Blank -> (match s' with
              | Blank -> true
              | One -> false)
  | One -> (match s' with
            | Blank -> false
            | One -> true)

(** val is_blank_half : symbol list -> bool **)

let is_blank_half l =
  forallb (is_same Blank) l

(** val is_same_half : symbol list -> symbol list -> bool **)

let rec is_same_half l l' =
  match l with
  | [] -> is_blank_half l'
  | s :: l0 ->
    (match l' with
     | [] -> is_blank_half l
     | s' :: l'0 -> if is_same s s' then is_same_half l0 l'0 else false)

(** val is_same_near : nat -> symbol list -> symbol list -> bool **)

let rec is_same_near k l l' =
  match k with
  | O -> true
  | S k0 ->
    if is_same (hd Blank l) (hd Blank l')
    then is_same_near k0 (tl l) (tl l')
    else false

type watched = { run : zipper; beyond : nat; depth : nat }

(** val watched_step : machine -> watched -> watched option **)

let watched_step m w =
  match entry_at m w.run with
  | Some a ->
    let z0 = moved w.run a in
    (match a.move with
     | Left ->
       (match w.beyond with
        | O -> Some { run = z0; beyond = O; depth = (S w.depth) }
        | S b -> Some { run = z0; beyond = b; depth = w.depth })
     | Right -> Some { run = z0; beyond = (S w.beyond); depth = w.depth })
  | None -> None

(** val is_translated : machine -> n -> n -> bool **)

let is_translated m i j =
  match leap_N (stepped m) i blank_start with
  | Some z0 ->
    (match leap_N (watched_step m) (N.sub j i) { run = z0; beyond = O;
             depth = O } with
     | Some w ->
       let y = w.run in
       (&&)
         ((&&)
           ((&&)
             ((&&) ((&&) (N.ltb i j) (Nat.leb w.depth w.beyond))
               (Nat.eqb z0.at_state y.at_state)) (is_same z0.here y.here))
           (is_same_half z0.right y.right))
         (is_same_near w.depth z0.left y.left)
     | None -> false)
  | None -> false

type pair = nat * symbol

(** val pairs : nat -> pair list **)

let pairs n0 =
  flat_map (fun q -> (q, Blank) :: ((q, One) :: [])) (seq O n0)

type known = zipper

(** val before : known -> pair -> action -> known option **)

let before y p a =
  if Nat.eqb a.next y.at_state
  then (match a.move with
        | Left ->
          (match y.right with
           | [] ->
             Some { at_state = (fst p); left = (y.here :: y.left); here =
               (snd p); right = [] }
           | w :: l ->
             if is_same w a.write
             then Some { at_state = (fst p); left = (y.here :: y.left);
                    here = (snd p); right = l }
             else None)
        | Right ->
          (match y.left with
           | [] ->
             Some { at_state = (fst p); left = []; here = (snd p); right =
               (y.here :: y.right) }
           | w :: l ->
             if is_same w a.write
             then Some { at_state = (fst p); left = l; here = (snd p);
                    right = (y.here :: y.right) }
             else None))
  else None

(** val entries : nat -> machine -> (pair * action) list **)

let entries n0 m =
  flat_map (fun p ->
    match m (fst p) (snd p) with
    | Some a -> (p, a) :: []
    | None -> []) (pairs n0)

(** val leads : (pair * action) list -> nat -> known -> bool **)

let rec leads es d y =
  match d with
  | O -> true
  | S d0 ->
    existsb (fun e ->
      match before y (fst e) (snd e) with
      | Some x -> leads es d0 x
      | None -> false) es

(** val is_backward : nat -> machine -> n -> bool **)

let is_backward n0 m d =
  let es = entries n0 m in
  let k = N.to_nat d in
  (match leap_N (stepped m) d blank_start with
   | Some _ ->
     forallb (fun p ->
       match m (fst p) (snd p) with
       | Some _ -> true
       | None ->
         negb
           (leads es k { at_state = (fst p); left = []; here = (snd p);
             right = [] })) (pairs n0)
   | None -> false)

(** val append : positive -> positive -> positive **)

let rec append i j =
  match i with
  | XI ii -> XI (append ii j)
  | XO ii -> XO (append ii j)
  | XH -> j

module PositiveMap =
 struct
  type key = positive

  type 'a tree =
  | Leaf
  | Node of 'a tree * 'a option * 'a tree

  type 'a t = 'a tree

  (** val empty : 'a1 t **)

  let empty =
    Leaf

  (** val find : key -> 'a1 t -> 'a1 option **)

  let rec find i = function
  | Leaf -> None
  | Node (l, o, r) ->
    (match i with
     | XI ii -> find ii r
     | XO ii -> find ii l
     | XH -> o)

  (** val add : key -> 'a1 -> 'a1 t -> 'a1 t **)

  let rec add i v = function
  | Leaf ->
    (match i with
     | XI ii -> Node (Leaf, None, (add ii v Leaf))
     | XO ii -> Node ((add ii v Leaf), None, Leaf)
     | XH -> Node (Leaf, (Some v), Leaf))
  | Node (l, o, r) ->
    (match i with
     | XI ii -> Node (l, o, (add ii v r))
     | XO ii -> Node ((add ii v l), o, r)
     | XH -> Node (l, (Some v), r))

  (** val xelements : 'a1 t -> key -> (key * 'a1) list **)

  let rec xelements m i =
    match m with
    | Leaf -> []
    | Node (l, o, r) ->
      (match o with
       | Some x ->
         app (xelements l (append i (XO XH))) ((i,
           x) :: (xelements r (append i (XI XH))))
       | None ->
         app (xelements l (append i (XO XH))) (xelements r (append i (XI XH))))

  (** val elements : 'a1 t -> (key * 'a1) list **)

  let elements m =
    xelements m XH
 end

type node = positive * nat

type edges = node list option

type reader = { on_blank : positive; on_one : positive;
                edges_by_state : (edges * edges) list }

(** val is_node : node -> node -> bool **)

let is_node x y =
  (&&) (Coq_Pos.eqb (fst x) (fst y)) (Nat.eqb (snd x) (snd y))

(** val is_in : node -> node list -> bool **)

let is_in x l =
  existsb (is_node x) l

(** val readers_of : reader list -> reader PositiveMap.t **)

let readers_of l =
  snd
    (fold_left (fun a x -> ((Coq_Pos.succ (fst a)),
      (PositiveMap.add (fst a) x (snd a)))) l (XH, PositiveMap.empty))

(** val delta : reader PositiveMap.t -> positive -> symbol -> positive **)

let delta readers q s =
  match PositiveMap.find q readers with
  | Some x -> (match s with
               | Blank -> x.on_blank
               | One -> x.on_one)
  | None -> q

(** val edges0 :
    machine -> reader PositiveMap.t -> node -> symbol -> edges **)

let edges0 m readers x s =
  match m (snd x) s with
  | Some _ ->
    (match PositiveMap.find (fst x) readers with
     | Some y ->
       (match nth_error y.edges_by_state (snd x) with
        | Some e -> (match s with
                     | Blank -> fst e
                     | One -> snd e)
        | None -> None)
     | None -> None)
  | None -> None

(** val leads_back :
    machine -> reader PositiveMap.t -> node -> symbol -> symbol -> node list
    -> bool **)

let leads_back m readers x b w l =
  match edges0 m readers x b with
  | Some ys ->
    forallb (fun y ->
      match edges0 m readers y w with
      | Some zs -> forallb (fun z0 -> is_in z0 l) zs
      | None -> false) ys
  | None -> false

(** val fits_entry :
    machine -> reader PositiveMap.t -> positive -> (pair * action) -> bool **)

let fits_entry m readers q e =
  let (f, r) = fst e in
  let a = snd e in
  (match a.move with
   | Left ->
     forallb (fun b ->
       match edges0 m readers ((delta readers q b), f) r with
       | Some l -> leads_back m readers (q, a.next) b a.write l
       | None -> true) (Blank :: (One :: []))
   | Right ->
     (match edges0 m readers (q, f) r with
      | Some l -> is_in ((delta readers q a.write), a.next) l
      | None -> true))

(** val is_reduced_by :
    nat -> machine -> reader PositiveMap.t -> node list -> bool **)

let is_reduced_by n0 m readers keep =
  (&&)
    ((&&)
      ((&&) (Coq_Pos.eqb (delta readers XH Blank) XH) (is_in (XH, O) keep))
      (forallb (fun x ->
        match edges0 m readers x Blank with
        | Some l -> forallb (fun y -> is_in y keep) l
        | None -> false) keep))
    (let es = entries n0 m in
     forallb (fun q -> forallb (fits_entry m readers (fst q)) es)
       (PositiveMap.elements readers))

(** val is_reduced : nat -> machine -> reader list -> node list -> bool **)

let is_reduced n0 m l keep =
  is_reduced_by n0 m (readers_of l) keep

type local = { left_word : word; local_state : nat; local_here : symbol;
               right_word : word }

(** val word_eq_dec : word -> word -> bool **)

let word_eq_dec =
  list_eq_dec symbol_eq_dec

(** val local_eq_dec : local -> local -> bool **)

let local_eq_dec c c' =
  let { left_word = left_word0; local_state = local_state0; local_here =
    local_here0; right_word = right_word0 } = c
  in
  let { left_word = left_word1; local_state = local_state1; local_here =
    local_here1; right_word = right_word1 } = c'
  in
  if word_eq_dec left_word0 left_word1
  then if Nat.eq_dec local_state0 local_state1
       then if symbol_eq_dec local_here0 local_here1
            then word_eq_dec right_word0 right_word1
            else false
       else false
  else false

(** val has_word : word -> word list -> bool **)

let has_word w l =
  if in_dec word_eq_dec w l then true else false

(** val has_local : local -> local list -> bool **)

let has_local c l =
  if in_dec local_eq_dec c l then true else false

(** val stays :
    machine -> word list -> word list -> local list -> local -> bool **)

let stays m ls rs cs c =
  match m c.local_state c.local_here with
  | Some a ->
    (match a.move with
     | Left ->
       let r = a.write :: (removelast c.right_word) in
       (&&) (has_word r rs)
         (forallb (fun b ->
           let l = app (tl c.left_word) (b :: []) in
           if has_word l ls
           then has_local { left_word = l; local_state = a.next; local_here =
                  (hd Blank c.left_word); right_word = r } cs
           else true) (Blank :: (One :: [])))
     | Right ->
       let l = a.write :: (removelast c.left_word) in
       (&&) (has_word l ls)
         (forallb (fun b ->
           let r = app (tl c.right_word) (b :: []) in
           if has_word r rs
           then has_local { left_word = l; local_state = a.next; local_here =
                  (hd Blank c.right_word); right_word = r } cs
           else true) (Blank :: (One :: []))))
  | None -> false

(** val is_closed :
    machine -> nat -> word list -> word list -> local list -> bool **)

let is_closed m g ls rs cs =
  match g with
  | O -> false
  | S _ ->
    let w = repeat Blank g in
    (&&)
      ((&&) ((&&) (has_word w ls) (has_word w rs))
        (has_local { left_word = w; local_state = O; local_here = Blank;
          right_word = w } cs)) (forallb (stays m ls rs cs) cs)

type vector = z list

(** val coordinate : nat -> vector -> z **)

let coordinate x v =
  nth x v Z0

type coset = { base : vector; rows : vector list }

(** val less : vector -> z -> vector -> vector **)

let rec less v k w =
  match v with
  | [] ->
    (match w with
     | [] -> v
     | y :: w0 -> (Z.opp (Z.mul k y)) :: (less [] k w0))
  | x :: v0 ->
    (match w with
     | [] -> v
     | y :: w0 -> (Z.sub x (Z.mul k y)) :: (less v0 k w0))

(** val unit0 : nat -> vector **)

let rec unit0 = function
| O -> (Zpos XH) :: []
| S x0 -> Z0 :: (unit0 x0)

(** val counted : vector -> z -> nat option -> vector **)

let counted v k = function
| Some x -> less v (Z.opp k) (unit0 x)
| None -> v

(** val first_place : vector -> nat **)

let rec first_place = function
| [] -> O
| x :: v0 -> if Z.eqb x Z0 then S (first_place v0) else O

(** val is_sum : vector -> vector list -> bool **)

let rec is_sum v = function
| [] -> forallb (Z.eqb Z0) v
| w :: l0 ->
  let x = first_place w in
  is_sum (less v (Z.div (coordinate x v) (coordinate x w)) w) l0

(** val euclid : nat -> nat -> vector -> vector -> vector * vector **)

let rec euclid fuel x v w =
  match fuel with
  | O -> (v, w)
  | S fuel0 ->
    if Z.eqb (coordinate x w) Z0
    then (v, w)
    else euclid fuel0 x w
           (less v (Z.quot (coordinate x v) (coordinate x w)) w)

(** val eliminate :
    nat -> vector list -> vector option -> vector list -> (vector
    option * vector list) option **)

let rec eliminate x l carrier rest =
  match l with
  | [] -> Some (carrier, rest)
  | w :: l0 ->
    (match carrier with
     | Some v ->
       let (v0, w0) =
         euclid (S (S (S (S (S (S (S (S (S (S (S (S (S (S (S (S (S (S (S (S
           (S (S (S (S (S (S (S (S (S (S (S (S (S (S (S (S (S (S (S (S (S (S
           (S (S (S (S (S (S (S (S (S (S (S (S (S (S (S (S (S (S (S (S (S (S
           (S (S (S (S (S (S (S (S (S (S (S (S (S (S (S (S (S (S (S (S (S (S
           (S (S (S (S (S (S (S (S (S (S (S (S (S (S
           O))))))))))))))))))))))))))))))))))))))))))))))))))))))))))))))))))))))))))))))))))))))))))))))))))))
           x v w
       in
       if Z.eqb (coordinate x w0) Z0
       then eliminate x l0 (Some v0) (w0 :: rest)
       else None
     | None ->
       if Z.eqb (coordinate x w) Z0
       then eliminate x l0 None (w :: rest)
       else eliminate x l0 (Some w) rest)

type points =
| Unknown
| NoPoint
| Within of coset

(** val with_zero : points -> nat -> points **)

let with_zero p x =
  match p with
  | Within c ->
    (match eliminate x c.rows None [] with
     | Some p0 ->
       let (o, rest) = p0 in
       (match o with
        | Some v ->
          let b = coordinate x c.base in
          let d = coordinate x v in
          if Z.eqb d Z0
          then Unknown
          else if Z.eqb (Z.modulo b d) Z0
               then Within { base = (less c.base (Z.div b d) v); rows = rest }
               else NoPoint
        | None ->
          if Z.eqb (coordinate x c.base) Z0
          then Within { base = c.base; rows = rest }
          else NoPoint)
     | None -> Unknown)
  | _ -> p

type transition = (nat * nat option) option

type automaton = (transition * transition) list

(** val goes : automaton -> nat -> symbol -> transition **)

let goes a q s =
  match nth_error a q with
  | Some row -> (match s with
                 | Blank -> fst row
                 | One -> snd row)
  | None -> None

type place = { on_left : nat; in_state : nat; on_cell : symbol; on_right : nat }

type item = place * coset

(** val is_place : place -> place -> bool **)

let is_place p p' =
  (&&)
    ((&&)
      ((&&) (Nat.eqb p.on_left p'.on_left) (Nat.eqb p.in_state p'.in_state))
      (is_same p.on_cell p'.on_cell)) (Nat.eqb p.on_right p'.on_right)

type uses = n option list

(** val uses_of : uses -> nat -> n option **)

let uses_of u q =
  nth q u None

(** val more_uses : n -> nat option -> n **)

let more_uses u = function
| Some x -> N.setbit u (N.of_nat x)
| None -> u

(** val all_transitions : automaton -> ((nat * symbol) * transition) list **)

let all_transitions a =
  flat_map (fun q -> ((q, Blank), (goes a q Blank)) :: (((q, One),
    (goes a q One)) :: [])) (seq O (length a))

(** val are_closed : automaton -> uses -> bool **)

let are_closed a u =
  forallb (fun t0 ->
    match uses_of u (fst (fst t0)) with
    | Some have ->
      (match snd t0 with
       | Some y ->
         let (q, c) = y in
         (match uses_of u q with
          | Some there ->
            N.eqb (N.coq_land (more_uses have c) there) (more_uses have c)
          | None -> false)
       | None -> true)
    | None -> true) (all_transitions a)

(** val put : 'a1 list -> nat -> 'a1 -> 'a1 list **)

let rec put l k x =
  match l with
  | [] -> []
  | y :: l0 -> (match k with
                | O -> x :: l0
                | S k0 -> y :: (put l0 k0 x))

(** val grown : automaton -> uses -> uses **)

let grown a u =
  fold_left (fun u0 t0 ->
    match uses_of u0 (fst (fst t0)) with
    | Some have ->
      (match snd t0 with
       | Some y ->
         let (q, c) = y in
         let there = match uses_of u0 q with
                     | Some there -> there
                     | None -> N0
         in
         put u0 q (Some (N.coq_lor (more_uses have c) there))
       | None -> u0)
    | None -> u0) (all_transitions a) u

(** val uses0 : automaton -> uses **)

let uses0 a =
  Nat.iter (S (length a)) (grown a) (put (repeat None (length a)) O (Some N0))

(** val item_at : item list -> place -> coset option **)

let item_at items p =
  match find (fun i -> is_place (fst i) p) items with
  | Some i -> Some (snd i)
  | None -> None

(** val has_bit : n option -> nat -> bool **)

let has_bit u x =
  match u with
  | Some u0 -> N.testbit u0 (N.of_nat x)
  | None -> false

(** val is_settled : item list -> nat -> points -> place -> bool **)

let is_settled items counts p at_place =
  match p with
  | Unknown -> false
  | NoPoint -> true
  | Within c ->
    (||)
      (existsb (fun x ->
        (&&) (Z.ltb (coordinate x c.base) Z0)
          (forallb (fun r -> Z.eqb (coordinate x r) Z0) c.rows))
        (seq O counts))
      (match item_at items at_place with
       | Some d ->
         (&&) (is_sum (less c.base (Zpos XH) d.base) d.rows)
           (forallb (fun r -> is_sum r d.rows) c.rows)
       | None -> false)

(** val steps_to :
    uses -> uses -> item list -> nat -> coset -> nat option -> nat option ->
    place -> bool **)

let steps_to lu ru items counts c more fewer p =
  let moved0 = Within { base =
    (counted (counted c.base (Zpos XH) more) (Zneg XH) fewer); rows = c.rows }
  in
  let absent =
    filter (fun x ->
      negb
        ((||) (has_bit (uses_of lu p.on_left) x)
          (has_bit (uses_of ru p.on_right) x))) (seq O counts)
  in
  is_settled items counts (fold_left with_zero absent moved0) p

(** val comes_to :
    automaton -> nat -> (nat -> symbol -> nat option -> bool) -> bool **)

let comes_to a r f =
  forallb (fun t0 ->
    let (y, y0) = t0 in
    let (q, b) = y in
    (match y0 with
     | Some y1 -> let (q', c) = y1 in if Nat.eqb q' r then f q b c else true
     | None -> true)) (all_transitions a)

(** val goes_on :
    machine -> automaton -> automaton -> uses -> uses -> item list -> nat ->
    item -> bool **)

let goes_on m la ra lu ru items counts = function
| (p, c) ->
  (match m p.in_state p.on_cell with
   | Some a ->
     (match a.move with
      | Left ->
        (match goes ra p.on_right a.write with
         | Some p0 ->
           let (r, more) = p0 in
           comes_to la p.on_left (fun q b fewer ->
             steps_to lu ru items counts c more fewer { on_left = q;
               in_state = a.next; on_cell = b; on_right = r })
         | None -> false)
      | Right ->
        (match goes la p.on_left a.write with
         | Some p0 ->
           let (l, more) = p0 in
           comes_to ra p.on_right (fun q b fewer ->
             steps_to lu ru items counts c more fewer { on_left = l;
               in_state = a.next; on_cell = b; on_right = q })
         | None -> false))
   | None -> false)

(** val starts_blank : automaton -> bool **)

let starts_blank a =
  match goes a O Blank with
  | Some p ->
    let (n0, o) = p in
    (match n0 with
     | O -> (match o with
             | Some _ -> false
             | None -> true)
     | S _ -> false)
  | None -> false

(** val starts_used : uses -> bool **)

let starts_used u =
  match uses_of u O with
  | Some _ -> true
  | None -> false

(** val stands :
    machine -> automaton -> automaton -> uses -> uses -> item list -> nat ->
    bool **)

let stands m la ra lu ru items counts =
  (&&)
    ((&&)
      ((&&)
        ((&&)
          ((&&)
            ((&&) ((&&) (starts_blank la) (starts_blank ra)) (starts_used lu))
            (starts_used ru)) (are_closed la lu)) (are_closed ra ru))
      (match item_at items { on_left = O; in_state = O; on_cell = Blank;
               on_right = O } with
       | Some c -> is_sum (less [] (Zpos XH) c.base) c.rows
       | None -> false)) (forallb (goes_on m la ra lu ru items counts) items)

(** val is_counted :
    machine -> nat -> automaton -> automaton -> item list -> bool **)

let is_counted m counts la ra items =
  stands m la ra (uses0 la) (uses0 ra) items counts

type exponent = { number : n; fa : n; fb : n; fc : n; fd : n }

(** val once : exponent **)

let once =
  { number = (Npos XH); fa = N0; fb = N0; fc = N0; fd = N0 }

(** val plus : exponent -> exponent -> exponent **)

let plus e f =
  { number = (N.add e.number f.number); fa = (N.add e.fa f.fa); fb =
    (N.add e.fb f.fb); fc = (N.add e.fc f.fc); fd = (N.add e.fd f.fd) }

(** val so_often : n -> exponent -> exponent **)

let so_often k e =
  { number = (N.mul k e.number); fa = (N.mul k e.fa); fb = (N.mul k e.fb);
    fc = (N.mul k e.fc); fd = (N.mul k e.fd) }

type exponents = { ea : exponent; eb : exponent; ec : exponent; ed : exponent }

(** val exponent_by : exponent -> exponents -> exponent **)

let exponent_by e x =
  plus { number = e.number; fa = N0; fb = N0; fc = N0; fd = N0 }
    (plus (so_often e.fa x.ea)
      (plus (so_often e.fb x.eb)
        (plus (so_often e.fc x.ec) (so_often e.fd x.ed))))

type block = word * exponent

type half = block list

type form = { left_half : half; form_state : nat; side : direction;
              right_half : half }

(** val half_by : half -> exponents -> half **)

let half_by h x =
  map (fun b -> ((fst b), (exponent_by (snd b) x))) h

(** val form_by : form -> exponents -> form **)

let form_by f x =
  { left_half = (half_by f.left_half x); form_state = f.form_state; side =
    f.side; right_half = (half_by f.right_half x) }

(** val block_eq_dec : block -> block -> bool **)

let block_eq_dec b c =
  let (a, b0) = b in
  let (a0, b1) = c in
  if let rec f l x =
       match l with
       | [] -> (match x with
                | [] -> true
                | _ :: _ -> false)
       | y :: l0 ->
         (match x with
          | [] -> false
          | a1 :: l1 ->
            (match y with
             | Blank -> (match a1 with
                         | Blank -> f l0 l1
                         | One -> false)
             | One -> (match a1 with
                       | Blank -> false
                       | One -> f l0 l1)))
     in f a a0
  then let { number = number0; fa = fa0; fb = fb0; fc = fc0; fd = fd0 } = b0
       in
       let { number = number1; fa = fa1; fb = fb1; fc = fc1; fd = fd1 } = b1
       in
       if match number0 with
          | N0 -> (match number1 with
                   | N0 -> true
                   | Npos _ -> false)
          | Npos p ->
            (match number1 with
             | N0 -> false
             | Npos p0 ->
               let rec f p1 x =
                 match p1 with
                 | XI p2 -> (match x with
                             | XI p3 -> f p2 p3
                             | _ -> false)
                 | XO p2 -> (match x with
                             | XO p3 -> f p2 p3
                             | _ -> false)
                 | XH -> (match x with
                          | XH -> true
                          | _ -> false)
               in f p p0)
       then if match fa0 with
               | N0 -> (match fa1 with
                        | N0 -> true
                        | Npos _ -> false)
               | Npos p ->
                 (match fa1 with
                  | N0 -> false
                  | Npos p0 ->
                    let rec f p1 x =
                      match p1 with
                      | XI p2 -> (match x with
                                  | XI p3 -> f p2 p3
                                  | _ -> false)
                      | XO p2 -> (match x with
                                  | XO p3 -> f p2 p3
                                  | _ -> false)
                      | XH -> (match x with
                               | XH -> true
                               | _ -> false)
                    in f p p0)
            then if match fb0 with
                    | N0 -> (match fb1 with
                             | N0 -> true
                             | Npos _ -> false)
                    | Npos p ->
                      (match fb1 with
                       | N0 -> false
                       | Npos p0 ->
                         let rec f p1 x =
                           match p1 with
                           | XI p2 ->
                             (match x with
                              | XI p3 -> f p2 p3
                              | _ -> false)
                           | XO p2 ->
                             (match x with
                              | XO p3 -> f p2 p3
                              | _ -> false)
                           | XH -> (match x with
                                    | XH -> true
                                    | _ -> false)
                         in f p p0)
                 then if match fc0 with
                         | N0 -> (match fc1 with
                                  | N0 -> true
                                  | Npos _ -> false)
                         | Npos p ->
                           (match fc1 with
                            | N0 -> false
                            | Npos p0 ->
                              let rec f p1 x =
                                match p1 with
                                | XI p2 ->
                                  (match x with
                                   | XI p3 -> f p2 p3
                                   | _ -> false)
                                | XO p2 ->
                                  (match x with
                                   | XO p3 -> f p2 p3
                                   | _ -> false)
                                | XH -> (match x with
                                         | XH -> true
                                         | _ -> false)
                              in f p p0)
                      then (match fd0 with
                            | N0 ->
                              (match fd1 with
                               | N0 -> true
                               | Npos _ -> false)
                            | Npos p ->
                              (match fd1 with
                               | N0 -> false
                               | Npos p0 ->
                                 let rec f p1 x =
                                   match p1 with
                                   | XI p2 ->
                                     (match x with
                                      | XI p3 -> f p2 p3
                                      | _ -> false)
                                   | XO p2 ->
                                     (match x with
                                      | XO p3 -> f p2 p3
                                      | _ -> false)
                                   | XH ->
                                     (match x with
                                      | XH -> true
                                      | _ -> false)
                                 in f p p0))
                      else false
                 else false
            else false
       else false
  else false

(** val form_eq_dec : form -> form -> bool **)

let form_eq_dec f g =
  let { left_half = left_half0; form_state = form_state0; side = side0;
    right_half = right_half0 } = f
  in
  let { left_half = left_half1; form_state = form_state1; side = side1;
    right_half = right_half1 } = g
  in
  if list_eq_dec block_eq_dec left_half0 left_half1
  then if Nat.eq_dec form_state0 form_state1
       then (match side0 with
             | Left ->
               (match side1 with
                | Left -> list_eq_dec block_eq_dec right_half0 right_half1
                | Right -> false)
             | Right ->
               (match side1 with
                | Left -> false
                | Right -> list_eq_dec block_eq_dec right_half0 right_half1))
       else false
  else false

(** val power : word -> nat -> word **)

let rec power w = function
| O -> []
| S k0 -> app w (power w k0)

type equation =
| Split of word * exponent * exponent
| Symbols of word
| Roll of word * word * word * exponent
| Power of word * word * nat * exponent
| Empty of word
| Blanks of word * exponent

(** val sides : equation -> ((half * half) * bool) option **)

let sides = function
| Split (w, e, f) ->
  Some ((((w, (plus e f)) :: []), ((w, e) :: ((w, f) :: []))), false)
| Symbols w ->
  Some ((((w, once) :: []), (map (fun s -> ((s :: []), once)) w)), false)
| Roll (u, w, v, e) ->
  if list_eq_dec symbol_eq_dec (app u w) (app v u)
  then Some ((((u, once) :: ((w, e) :: [])), ((v, e) :: ((u, once) :: []))),
         false)
  else None
| Power (v, w, k, e) ->
  if list_eq_dec symbol_eq_dec v (power w k)
  then Some ((((v, e) :: []), ((w, (so_often (N.of_nat k) e)) :: [])), false)
  else None
| Empty w ->
  Some ((((w, { number = N0; fa = N0; fb = N0; fc = N0; fd = N0 }) :: []),
    []), false)
| Blanks (w, e) ->
  if is_blank_half w then Some ((((w, e) :: []), []), true) else None

(** val behind : half -> half -> half option **)

let rec behind old h =
  match old with
  | [] -> Some h
  | o :: old0 ->
    (match h with
     | [] -> None
     | b :: h0 -> if block_eq_dec o b then behind old0 h0 else None)

(** val changed : nat -> half -> half -> bool -> half -> half option **)

let rec changed place0 old new0 at_end h =
  match place0 with
  | O ->
    (match behind old h with
     | Some rest ->
       if at_end
       then (match rest with
             | [] -> Some (app new0 rest)
             | _ :: _ -> None)
       else Some (app new0 rest)
     | None -> None)
  | S place1 ->
    (match h with
     | [] -> None
     | b :: h0 ->
       (match changed place1 old new0 at_end h0 with
        | Some h1 -> Some (b :: h1)
        | None -> None))

(** val symbol_of : block -> symbol option **)

let symbol_of b =
  match fst b with
  | [] -> None
  | s :: l ->
    (match l with
     | [] -> if block_eq_dec b ((s :: []), once) then Some s else None
     | _ :: _ -> None)

(** val taken : form -> ((half * symbol) * half) option **)

let taken f =
  match f.side with
  | Left ->
    (match f.left_half with
     | [] -> None
     | b :: l ->
       (match symbol_of b with
        | Some s -> Some ((l, s), f.right_half)
        | None -> None))
  | Right ->
    (match f.right_half with
     | [] -> None
     | b :: r ->
       (match symbol_of b with
        | Some s -> Some ((f.left_half, s), r)
        | None -> None))

(** val turn : form -> form option **)

let turn f =
  match taken f with
  | Some p ->
    let (p0, r) = p in
    let (l, s) = p0 in
    (match f.side with
     | Left ->
       Some { left_half = l; form_state = f.form_state; side = Right;
         right_half = (((s :: []), once) :: r) }
     | Right ->
       Some { left_half = (((s :: []), once) :: l); form_state =
         f.form_state; side = Left; right_half = r })
  | None -> None

type move0 =
| Steps of n
| Turn
| Use of nat * exponents
| Again of exponent * exponent * exponent
| Together of nat * exponent * exponent * exponent
| Change of direction * nat * equation * bool

type script = move0 list

type rule = { is_left_open : bool; is_right_open : bool; from : form;
              to0 : form; scripts : (script * script option) }

(** val one_step : machine -> form -> form option **)

let one_step m f =
  match taken f with
  | Some p ->
    let (p0, r) = p in
    let (l, s) = p0 in
    (match m f.form_state s with
     | Some a ->
       (match a.move with
        | Left ->
          Some { left_half = l; form_state = a.next; side = Left;
            right_half = (((a.write :: []), once) :: r) }
        | Right ->
          Some { left_half = (((a.write :: []), once) :: l); form_state =
            a.next; side = Right; right_half = r })
     | None -> None)
  | None -> None

(** val half_used : bool -> bool -> half -> half -> half -> half option **)

let half_used is_open is_rule_open old new0 h =
  match behind old h with
  | Some rest ->
    if is_rule_open
    then Some (app new0 rest)
    else if is_open
         then None
         else (match rest with
               | [] -> Some new0
               | _ :: _ -> None)
  | None -> None

(** val applied : bool -> bool -> rule -> exponents -> form -> form option **)

let applied lo ro r x f =
  let a = form_by r.from x in
  let b = form_by r.to0 x in
  if Nat.eq_dec a.form_state f.form_state
  then (match a.side with
        | Left ->
          (match f.side with
           | Left ->
             (match half_used lo r.is_left_open a.left_half b.left_half
                      f.left_half with
              | Some l ->
                (match half_used ro r.is_right_open a.right_half b.right_half
                         f.right_half with
                 | Some h ->
                   Some { left_half = l; form_state = b.form_state; side =
                     b.side; right_half = h }
                 | None -> None)
              | None -> None)
           | Right -> None)
        | Right ->
          (match f.side with
           | Left -> None
           | Right ->
             (match half_used lo r.is_left_open a.left_half b.left_half
                      f.left_half with
              | Some l ->
                (match half_used ro r.is_right_open a.right_half b.right_half
                         f.right_half with
                 | Some h ->
                   Some { left_half = l; form_state = b.form_state; side =
                     b.side; right_half = h }
                 | None -> None)
              | None -> None)))
  else None

(** val var_a : exponent **)

let var_a =
  { number = N0; fa = (Npos XH); fb = N0; fc = N0; fd = N0 }

(** val grouped : nat -> rule list -> nat -> rule option **)

let grouped before0 group i =
  if Nat.ltb i before0 then None else nth_error group (sub i before0)

(** val make :
    machine -> rule list -> rule list -> rule option -> bool -> bool -> move0
    -> form -> form option **)

let make m rules group proving lo ro it f =
  match it with
  | Steps k -> leap_N (one_step m) k f
  | Turn -> turn f
  | Use (i, x) ->
    (match nth_error rules i with
     | Some r -> applied lo ro r x f
     | None -> None)
  | Again (b, c, d) ->
    (match proving with
     | Some r -> applied lo ro r { ea = var_a; eb = b; ec = c; ed = d } f
     | None -> None)
  | Together (i, b, c, d) ->
    (match grouped (length rules) group i with
     | Some r -> applied lo ro r { ea = var_a; eb = b; ec = c; ed = d } f
     | None -> None)
  | Change (half0, place0, q, back) ->
    (match sides q with
     | Some p ->
       let (p0, at_end) = p in
       let (one, other) = p0 in
       if back
       then (match half0 with
             | Left ->
               if (&&) at_end lo
               then None
               else (match changed place0 other one at_end f.left_half with
                     | Some l ->
                       Some { left_half = l; form_state = f.form_state;
                         side = f.side; right_half = f.right_half }
                     | None -> None)
             | Right ->
               if (&&) at_end ro
               then None
               else (match changed place0 other one at_end f.right_half with
                     | Some r ->
                       Some { left_half = f.left_half; form_state =
                         f.form_state; side = f.side; right_half = r }
                     | None -> None))
       else (match half0 with
             | Left ->
               if (&&) at_end lo
               then None
               else (match changed place0 one other at_end f.left_half with
                     | Some l ->
                       Some { left_half = l; form_state = f.form_state;
                         side = f.side; right_half = f.right_half }
                     | None -> None)
             | Right ->
               if (&&) at_end ro
               then None
               else (match changed place0 one other at_end f.right_half with
                     | Some r ->
                       Some { left_half = f.left_half; form_state =
                         f.form_state; side = f.side; right_half = r }
                     | None -> None))
     | None -> None)

(** val leads_to :
    machine -> rule list -> rule list -> rule option -> bool -> bool ->
    script -> form -> form -> bool **)

let rec leads_to m rules group proving lo ro s f g =
  match s with
  | [] -> if form_eq_dec f g then true else false
  | it :: s0 ->
    (match make m rules group proving lo ro it f with
     | Some f0 -> leads_to m rules group proving lo ro s0 f0 g
     | None -> false)

(** val none : exponent **)

let none =
  { number = N0; fa = N0; fb = N0; fc = N0; fd = N0 }

(** val variables : exponent -> exponents **)

let variables a =
  { ea = a; eb = { number = N0; fa = N0; fb = (Npos XH); fc = N0; fd = N0 };
    ec = { number = N0; fa = N0; fb = N0; fc = (Npos XH); fd = N0 }; ed =
    { number = N0; fa = N0; fb = N0; fc = N0; fd = (Npos XH) } }

(** val a_and_one : exponent **)

let a_and_one =
  { number = (Npos XH); fa = (Npos XH); fb = N0; fc = N0; fd = N0 }

(** val is_proved : machine -> rule list -> rule list -> rule -> bool **)

let is_proved m rules group r =
  let lo = r.is_left_open in
  let ro = r.is_right_open in
  let (s, o) = r.scripts in
  (match o with
   | Some s' ->
     let with_a = fun f a -> form_by f (variables a) in
     (&&)
       (leads_to m rules [] None lo ro s (with_a r.from none)
         (with_a r.to0 none))
       (leads_to m rules group (Some r) lo ro s' (with_a r.from a_and_one)
         (with_a r.to0 a_and_one))
   | None -> leads_to m rules [] None lo ro s r.from r.to0)

(** val is_by_induction : rule -> bool **)

let is_by_induction r =
  match snd r.scripts with
  | Some _ -> true
  | None -> false

(** val may_be_group : rule list -> bool **)

let may_be_group group = match group with
| [] -> forallb is_by_induction group
| _ :: l ->
  (match l with
   | [] -> true
   | _ :: _ -> forallb is_by_induction group)

(** val is_group_proved : machine -> rule list -> rule list -> bool **)

let is_group_proved m rules group =
  (&&) (may_be_group group) (forallb (is_proved m rules group) group)

(** val are_proved : machine -> rule list -> rule list list -> bool **)

let rec are_proved m earlier = function
| [] -> true
| group :: groups0 ->
  (&&) (is_group_proved m earlier group)
    (are_proved m (app earlier group) groups0)

(** val has_step : script -> bool **)

let has_step s =
  existsb (fun it -> match it with
                     | Steps k -> N.ltb N0 k
                     | _ -> false) s

(** val blank_form : form **)

let blank_form =
  { left_half = []; form_state = O; side = Right; right_half = [] }

(** val is_by_rules :
    machine -> rule list list -> form -> exponents -> script -> exponents ->
    script -> bool **)

let is_by_rules m groups family first begin0 next0 loop =
  (&&)
    ((&&)
      ((&&) (are_proved m [] groups)
        (leads_to m (concat groups) [] None false false begin0 blank_form
          (form_by family first)))
      (leads_to m (concat groups) [] None false false loop family
        (form_by family next0))) (has_step loop)

type certificate =
| Halts of n * n option
| Cycles of n * n
| Translated of n * n * direction
| Backwards of n
| Reduced of direction * reader list * node list
| Closed of nat * word list * word list * local list
| Counting of nat * automaton * automaton * item list
| ByRules of rule list list * form * exponents * script * exponents * script
| Assumed
| NoClaim

type verdict =
| Halting of n * n * nat * symbol
| Never
| Nothing

(** val count_N : symbol list -> n -> n **)

let rec count_N l s =
  match l with
  | [] -> s
  | s0 :: l0 ->
    (match s0 with
     | Blank -> count_N l0 s
     | One -> count_N l0 (N.succ s))

(** val score_N : zipper -> n **)

let score_N z0 =
  count_N z0.left (count_N z0.right (Npos XH))

(** val is_claimed : n option -> n -> bool **)

let is_claimed claim s =
  match claim with
  | Some c -> N.eqb c s
  | None -> true

(** val halting : machine -> n -> n option -> verdict **)

let halting m k claim =
  match k with
  | N0 -> Nothing
  | Npos p ->
    (match leap_N (stepped m) (Coq_Pos.pred_N p) blank_start with
     | Some z0 ->
       (match entry_at m z0 with
        | Some _ -> Nothing
        | None ->
          let s = score_N z0 in
          if is_claimed claim s
          then Halting (k, s, z0.at_state, z0.here)
          else Nothing)
     | None -> Nothing)

(** val never_if : bool -> verdict **)

let never_if = function
| true -> Never
| false -> Nothing

(** val facing : direction -> machine -> machine **)

let facing side0 m =
  match side0 with
  | Left -> mirrored m
  | Right -> m

(** val table_eq_dec : table -> table -> bool **)

let rec table_eq_dec l x =
  match l with
  | [] -> (match x with
           | [] -> true
           | _ :: _ -> false)
  | y :: l0 ->
    (match x with
     | [] -> false
     | a :: l1 ->
       if let (a0, b) = y in
          let (a1, b0) = a in
          if match a0 with
             | Some a2 ->
               (match a1 with
                | Some a3 ->
                  let { write = write0; move = move1; next = next0 } = a2 in
                  let { write = write1; move = move2; next = next1 } = a3 in
                  (match write0 with
                   | Blank ->
                     (match write1 with
                      | Blank ->
                        (match move1 with
                         | Left ->
                           (match move2 with
                            | Left ->
                              let rec f n0 x0 =
                                match n0 with
                                | O ->
                                  (match x0 with
                                   | O -> true
                                   | S _ -> false)
                                | S n1 ->
                                  (match x0 with
                                   | O -> false
                                   | S n2 -> f n1 n2)
                              in f next0 next1
                            | Right -> false)
                         | Right ->
                           (match move2 with
                            | Left -> false
                            | Right ->
                              let rec f n0 x0 =
                                match n0 with
                                | O ->
                                  (match x0 with
                                   | O -> true
                                   | S _ -> false)
                                | S n1 ->
                                  (match x0 with
                                   | O -> false
                                   | S n2 -> f n1 n2)
                              in f next0 next1))
                      | One -> false)
                   | One ->
                     (match write1 with
                      | Blank -> false
                      | One ->
                        (match move1 with
                         | Left ->
                           (match move2 with
                            | Left ->
                              let rec f n0 x0 =
                                match n0 with
                                | O ->
                                  (match x0 with
                                   | O -> true
                                   | S _ -> false)
                                | S n1 ->
                                  (match x0 with
                                   | O -> false
                                   | S n2 -> f n1 n2)
                              in f next0 next1
                            | Right -> false)
                         | Right ->
                           (match move2 with
                            | Left -> false
                            | Right ->
                              let rec f n0 x0 =
                                match n0 with
                                | O ->
                                  (match x0 with
                                   | O -> true
                                   | S _ -> false)
                                | S n1 ->
                                  (match x0 with
                                   | O -> false
                                   | S n2 -> f n1 n2)
                              in f next0 next1))))
                | None -> false)
             | None -> (match a1 with
                        | Some _ -> false
                        | None -> true)
          then (match b with
                | Some a2 ->
                  (match b0 with
                   | Some a3 ->
                     let { write = write0; move = move1; next = next0 } = a2
                     in
                     let { write = write1; move = move2; next = next1 } = a3
                     in
                     (match write0 with
                      | Blank ->
                        (match write1 with
                         | Blank ->
                           (match move1 with
                            | Left ->
                              (match move2 with
                               | Left ->
                                 let rec f n0 x0 =
                                   match n0 with
                                   | O ->
                                     (match x0 with
                                      | O -> true
                                      | S _ -> false)
                                   | S n1 ->
                                     (match x0 with
                                      | O -> false
                                      | S n2 -> f n1 n2)
                                 in f next0 next1
                               | Right -> false)
                            | Right ->
                              (match move2 with
                               | Left -> false
                               | Right ->
                                 let rec f n0 x0 =
                                   match n0 with
                                   | O ->
                                     (match x0 with
                                      | O -> true
                                      | S _ -> false)
                                   | S n1 ->
                                     (match x0 with
                                      | O -> false
                                      | S n2 -> f n1 n2)
                                 in f next0 next1))
                         | One -> false)
                      | One ->
                        (match write1 with
                         | Blank -> false
                         | One ->
                           (match move1 with
                            | Left ->
                              (match move2 with
                               | Left ->
                                 let rec f n0 x0 =
                                   match n0 with
                                   | O ->
                                     (match x0 with
                                      | O -> true
                                      | S _ -> false)
                                   | S n1 ->
                                     (match x0 with
                                      | O -> false
                                      | S n2 -> f n1 n2)
                                 in f next0 next1
                               | Right -> false)
                            | Right ->
                              (match move2 with
                               | Left -> false
                               | Right ->
                                 let rec f n0 x0 =
                                   match n0 with
                                   | O ->
                                     (match x0 with
                                      | O -> true
                                      | S _ -> false)
                                   | S n1 ->
                                     (match x0 with
                                      | O -> false
                                      | S n2 -> f n1 n2)
                                 in f next0 next1))))
                   | None -> false)
                | None -> (match b0 with
                           | Some _ -> false
                           | None -> true))
          else false
       then table_eq_dec l0 l1
       else false)

(** val judged : table list -> table -> certificate -> verdict **)

let judged assumed t0 = function
| Halts (k, s) -> halting (machine0 t0) k s
| Cycles (i, j) -> never_if (is_translated (machine0 t0) i j)
| Translated (i, j, side0) ->
  never_if (is_translated (facing side0 (machine0 t0)) i j)
| Backwards d -> never_if (is_backward (used t0) (machine0 t0) d)
| Reduced (side0, readers, keep) ->
  never_if (is_reduced (used t0) (facing side0 (machine0 t0)) readers keep)
| Closed (g, ls, rs, cs) -> never_if (is_closed (machine0 t0) g ls rs cs)
| Counting (counts, la, ra, items) ->
  never_if (is_counted (machine0 t0) counts la ra items)
| ByRules (groups, family, first, begin0, next0, loop) ->
  never_if (is_by_rules (machine0 t0) groups family first begin0 next0 loop)
| Assumed -> never_if (if in_dec table_eq_dec t0 assumed then true else false)
| NoClaim -> Nothing

type tally = { halting_count : n; never_count : n; best : n;
               champions : table list; ones_best : n;
               ones_champions : table list; open0 : table list;
               refused : table list }

(** val nothing_yet : tally **)

let nothing_yet =
  { halting_count = N0; never_count = N0; best = N0; champions = [];
    ones_best = N0; ones_champions = []; open0 = []; refused = [] }

(** val most : n -> table list -> n -> table list -> n * table list **)

let most j l k l' =
  match N.compare j k with
  | Eq -> (j, (rev_append l' l))
  | Lt -> (k, l')
  | Gt -> (j, l)

(** val sum : tally -> tally -> tally **)

let sum a b =
  let (k, l) = most a.best a.champions b.best b.champions in
  let (s, l') = most a.ones_best a.ones_champions b.ones_best b.ones_champions
  in
  { halting_count = (N.add a.halting_count b.halting_count); never_count =
  (N.add a.never_count b.never_count); best = k; champions = l; ones_best =
  s; ones_champions = l'; open0 = (rev_append b.open0 a.open0); refused =
  (rev_append b.refused a.refused) }

(** val halting_one : table -> n -> n -> tally **)

let halting_one t0 k s =
  { halting_count = (Npos XH); never_count = N0; best = k; champions =
    (t0 :: []); ones_best = s; ones_champions = (t0 :: []); open0 = [];
    refused = [] }

(** val never_one : tally **)

let never_one =
  { halting_count = N0; never_count = (Npos XH); best = N0; champions = [];
    ones_best = N0; ones_champions = []; open0 = []; refused = [] }

(** val open_one : table -> tally **)

let open_one t0 =
  { halting_count = N0; never_count = N0; best = N0; champions = [];
    ones_best = N0; ones_champions = []; open0 = (t0 :: []); refused = [] }

(** val refused_one : table -> tally **)

let refused_one t0 =
  { halting_count = N0; never_count = N0; best = N0; champions = [];
    ones_best = N0; ones_champions = []; open0 = []; refused = (t0 :: []) }

type ledger = table -> certificate option

(** val walk :
    table list -> nat -> ledger -> nat -> table -> tally -> tally **)

let rec walk assumed n0 ledger0 fuel t0 a =
  match fuel with
  | O -> sum a (open_one t0)
  | S fuel0 ->
    (match ledger0 t0 with
     | Some c ->
       (match judged assumed t0 c with
        | Halting (k, s, q, r) ->
          fold_left (fun a0 child -> walk assumed n0 ledger0 fuel0 child a0)
            (children n0 t0 q r) (sum a (halting_one t0 k s))
        | Never -> sum a never_one
        | Nothing -> sum a (refused_one t0))
     | None -> sum a (open_one t0))

(** val judge_part : table list -> nat -> table -> ledger -> tally **)

let judge_part assumed n0 root ledger0 =
  walk assumed n0 ledger0 (S (mul (S (S O)) n0)) root nothing_yet

(** val closed : tally -> tally **)

let closed a =
  { halting_count = a.halting_count; never_count = a.never_count; best =
    a.best; champions = a.champions; ones_best = a.ones_best;
    ones_champions = a.ones_champions; open0 = []; refused = a.refused }

(** val join : tally -> tally list -> tally **)

let join trunk parts =
  fold_left sum parts (closed trunk)

(** val judge :
    table list -> nat -> ledger -> (table -> ledger) -> ((table -> tally) ->
    table list -> tally list) -> tally **)

let judge assumed n0 trunk part each =
  let a = judge_part assumed n0 (empty n0) trunk in
  join a (each (fun root -> judge_part assumed n0 root (part root)) a.open0)

(** val skelet_1 : table **)

let skelet_1 =
  ((Some { write = One; move = Right; next = (S O) }), (Some { write = One;
    move = Right; next = (S (S (S O))) })) :: (((Some { write = One; move =
    Left; next = (S (S O)) }), (Some { write = Blank; move = Right; next = (S
    (S O)) })) :: (((Some { write = One; move = Right; next = O }), (Some
    { write = One; move = Left; next = (S (S (S O))) })) :: (((Some { write =
    Blank; move = Right; next = (S (S (S (S O)))) }), (Some { write = Blank;
    move = Left; next = (S O) })) :: ((None, (Some { write = One; move =
    Right; next = (S (S O)) })) :: []))))

(** val skelet_10 : table **)

let skelet_10 =
  ((Some { write = One; move = Right; next = (S O) }), (Some { write = Blank;
    move = Right; next = O })) :: (((Some { write = Blank; move = Left;
    next = (S (S O)) }), (Some { write = One; move = Right; next =
    O })) :: (((Some { write = One; move = Right; next = (S (S (S (S
    O)))) }), (Some { write = One; move = Left; next = (S (S (S
    O))) })) :: (((Some { write = One; move = Left; next = (S (S O)) }),
    (Some { write = Blank; move = Left; next = (S (S (S O))) })) :: ((None,
    (Some { write = Blank; move = Right; next = (S O) })) :: []))))

(** val skelet_15 : table **)

let skelet_15 =
  ((Some { write = One; move = Right; next = (S O) }), None) :: (((Some
    { write = One; move = Right; next = (S (S O)) }), (Some { write = One;
    move = Left; next = (S O) })) :: (((Some { write = One; move = Left;
    next = (S (S (S O))) }), (Some { write = One; move = Right; next = (S (S
    (S (S O)))) })) :: (((Some { write = One; move = Left; next = (S O) }),
    (Some { write = Blank; move = Left; next = (S (S (S O))) })) :: (((Some
    { write = One; move = Right; next = O }), (Some { write = Blank; move =
    Right; next = (S (S O)) })) :: []))))

(** val skelet_17 : table **)

let skelet_17 =
  ((Some { write = One; move = Right; next = (S O) }), None) :: (((Some
    { write = Blank; move = Left; next = (S (S O)) }), (Some { write = One;
    move = Right; next = (S (S (S (S O)))) })) :: (((Some { write = Blank;
    move = Left; next = (S (S (S O))) }), (Some { write = One; move = Left;
    next = (S (S O)) })) :: (((Some { write = One; move = Right; next = O }),
    (Some { write = One; move = Left; next = (S O) })) :: (((Some { write =
    Blank; move = Right; next = (S O) }), (Some { write = Blank; move =
    Right; next = O })) :: []))))

(** val skelet_26 : table **)

let skelet_26 =
  ((Some { write = One; move = Right; next = (S O) }), (Some { write = One;
    move = Left; next = (S (S (S O))) })) :: (((Some { write = One; move =
    Right; next = (S (S O)) }), (Some { write = Blank; move = Right; next =
    (S O) })) :: (((Some { write = One; move = Left; next = O }), (Some
    { write = One; move = Right; next = (S (S O)) })) :: (((Some { write =
    One; move = Left; next = (S (S (S (S O)))) }), (Some { write = Blank;
    move = Left; next = O })) :: (((Some { write = One; move = Left; next =
    (S (S O)) }), None) :: []))))

(** val skelet_33 : table **)

let skelet_33 =
  ((Some { write = One; move = Right; next = (S O) }), (Some { write = One;
    move = Left; next = (S (S O)) })) :: (((Some { write = Blank; move =
    Right; next = (S (S O)) }), (Some { write = Blank; move = Right; next =
    (S O) })) :: (((Some { write = One; move = Left; next = (S (S (S O))) }),
    (Some { write = Blank; move = Left; next = O })) :: (((Some { write =
    One; move = Left; next = (S (S (S (S O)))) }), None) :: (((Some { write =
    One; move = Left; next = O }), (Some { write = One; move = Right; next =
    (S (S (S (S O)))) })) :: []))))

(** val skelet_34 : table **)

let skelet_34 =
  ((Some { write = One; move = Right; next = (S O) }), (Some { write = One;
    move = Left; next = (S (S O)) })) :: (((Some { write = Blank; move =
    Right; next = (S (S O)) }), (Some { write = Blank; move = Right; next =
    (S O) })) :: (((Some { write = One; move = Left; next = (S (S (S O))) }),
    (Some { write = Blank; move = Left; next = O })) :: (((Some { write =
    One; move = Left; next = (S (S (S (S O)))) }), None) :: (((Some { write =
    One; move = Left; next = O }), (Some { write = One; move = Right; next =
    O })) :: []))))

(** val skelet_35 : table **)

let skelet_35 =
  ((Some { write = One; move = Right; next = (S O) }), (Some { write = One;
    move = Left; next = (S (S O)) })) :: (((Some { write = Blank; move =
    Right; next = (S (S O)) }), (Some { write = Blank; move = Right; next =
    (S O) })) :: (((Some { write = One; move = Left; next = (S (S (S O))) }),
    (Some { write = Blank; move = Left; next = O })) :: (((Some { write =
    One; move = Left; next = (S (S (S (S O)))) }), None) :: (((Some { write =
    One; move = Left; next = O }), (Some { write = Blank; move = Left; next =
    O })) :: []))))

(** val eight : table list **)

let eight =
  skelet_1 :: (skelet_10 :: (skelet_15 :: (skelet_17 :: (skelet_26 :: (skelet_33 :: (skelet_34 :: (skelet_35 :: [])))))))
