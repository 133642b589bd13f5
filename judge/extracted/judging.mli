
val negb : bool -> bool

type nat =
| O
| S of nat

val option_map : ('a1 -> 'a2) -> 'a1 option -> 'a2 option

val fst : ('a1 * 'a2) -> 'a1

val snd : ('a1 * 'a2) -> 'a2

val length : 'a1 list -> nat

val app : 'a1 list -> 'a1 list -> 'a1 list

type comparison =
| Eq
| Lt
| Gt

val compOpp : comparison -> comparison

val add : nat -> nat -> nat

val mul : nat -> nat -> nat

val sub : nat -> nat -> nat

val max : nat -> nat -> nat

val min : nat -> nat -> nat

type positive =
| XI of positive
| XO of positive
| XH

type n =
| N0
| Npos of positive

type z =
| Z0
| Zpos of positive
| Zneg of positive

module Nat :
 sig
  val eqb : nat -> nat -> bool

  val leb : nat -> nat -> bool

  val ltb : nat -> nat -> bool

  val iter : nat -> ('a1 -> 'a1) -> 'a1 -> 'a1

  val eq_dec : nat -> nat -> bool
 end

module Pos :
 sig
  type mask =
  | IsNul
  | IsPos of positive
  | IsNeg
 end

module Coq_Pos :
 sig
  val succ : positive -> positive

  val add : positive -> positive -> positive

  val add_carry : positive -> positive -> positive

  val pred_double : positive -> positive

  val pred_N : positive -> n

  type mask = Pos.mask =
  | IsNul
  | IsPos of positive
  | IsNeg

  val succ_double_mask : mask -> mask

  val double_mask : mask -> mask

  val double_pred_mask : positive -> mask

  val sub_mask : positive -> positive -> mask

  val sub_mask_carry : positive -> positive -> mask

  val mul : positive -> positive -> positive

  val iter : ('a1 -> 'a1) -> 'a1 -> positive -> 'a1

  val compare_cont : comparison -> positive -> positive -> comparison

  val compare : positive -> positive -> comparison

  val eqb : positive -> positive -> bool

  val coq_Nsucc_double : n -> n

  val coq_Ndouble : n -> n

  val coq_lor : positive -> positive -> positive

  val coq_land : positive -> positive -> n

  val shiftl : positive -> n -> positive

  val testbit : positive -> n -> bool

  val iter_op : ('a1 -> 'a1 -> 'a1) -> positive -> 'a1 -> 'a1

  val to_nat : positive -> nat

  val of_succ_nat : nat -> positive
 end

module N :
 sig
  val succ_double : n -> n

  val double : n -> n

  val succ : n -> n

  val add : n -> n -> n

  val sub : n -> n -> n

  val mul : n -> n -> n

  val compare : n -> n -> comparison

  val eqb : n -> n -> bool

  val leb : n -> n -> bool

  val ltb : n -> n -> bool

  val pos_div_eucl : positive -> n -> n * n

  val coq_lor : n -> n -> n

  val coq_land : n -> n -> n

  val shiftl : n -> n -> n

  val testbit : n -> n -> bool

  val to_nat : n -> nat

  val of_nat : nat -> n

  val setbit : n -> n -> n
 end

module Z :
 sig
  val double : z -> z

  val succ_double : z -> z

  val pred_double : z -> z

  val pos_sub : positive -> positive -> z

  val add : z -> z -> z

  val opp : z -> z

  val sub : z -> z -> z

  val mul : z -> z -> z

  val compare : z -> z -> comparison

  val leb : z -> z -> bool

  val ltb : z -> z -> bool

  val eqb : z -> z -> bool

  val of_N : n -> z

  val pos_div_eucl : positive -> z -> z * z

  val div_eucl : z -> z -> z * z

  val div : z -> z -> z

  val modulo : z -> z -> z

  val quotrem : z -> z -> z * z

  val quot : z -> z -> z
 end

val hd : 'a1 -> 'a1 list -> 'a1

val tl : 'a1 list -> 'a1 list

val in_dec : ('a1 -> 'a1 -> bool) -> 'a1 -> 'a1 list -> bool

val nth : nat -> 'a1 list -> 'a1 -> 'a1

val nth_error : 'a1 list -> nat -> 'a1 option

val removelast : 'a1 list -> 'a1 list

val rev_append : 'a1 list -> 'a1 list -> 'a1 list

val concat : 'a1 list list -> 'a1 list

val list_eq_dec : ('a1 -> 'a1 -> bool) -> 'a1 list -> 'a1 list -> bool

val map : ('a1 -> 'a2) -> 'a1 list -> 'a2 list

val flat_map : ('a1 -> 'a2 list) -> 'a1 list -> 'a2 list

val fold_left : ('a1 -> 'a2 -> 'a1) -> 'a2 list -> 'a1 -> 'a1

val existsb : ('a1 -> bool) -> 'a1 list -> bool

val forallb : ('a1 -> bool) -> 'a1 list -> bool

val filter : ('a1 -> bool) -> 'a1 list -> 'a1 list

val find : ('a1 -> bool) -> 'a1 list -> 'a1 option

val seq : nat -> nat -> nat list

val repeat : 'a1 -> nat -> 'a1 list

type symbol =
| Blank
| One

type direction =
| Left
| Right

type action = { write : symbol; move : direction; next : nat }

type machine = nat -> symbol -> action option

type zipper = { at_state : nat; left : symbol list; here : symbol;
                right : symbol list }

val blank_start : zipper

val moved : zipper -> action -> zipper

val entry_at : machine -> zipper -> action option

val stepped : machine -> zipper -> zipper option

val leap : ('a1 -> 'a1 option) -> positive -> 'a1 -> 'a1 option

val leap_N : ('a1 -> 'a1 option) -> n -> 'a1 -> 'a1 option

val opposite : direction -> direction

val mirrored_action : action -> action

val mirrored : machine -> machine

type entry = action option

type table = (entry * entry) list

val on_symbol : (entry * entry) -> symbol -> entry

val machine0 : table -> machine

val empty : nat -> table

val filled : table -> nat -> symbol -> action -> table

val is_full : table -> bool

val is_blank : table -> bool

val states_of : nat -> (entry * entry) -> nat

val used_from : nat -> table -> nat

val used : table -> nat

val children : nat -> table -> nat -> symbol -> table list

val symbol_eq_dec : symbol -> symbol -> bool

type word = symbol list

val is_same : symbol -> symbol -> bool

val is_blank_half : symbol list -> bool

val is_same_half : symbol list -> symbol list -> bool

val is_same_near : nat -> symbol list -> symbol list -> bool

type watched = { run : zipper; beyond : nat; depth : nat }

val watched_step : machine -> watched -> watched option

val is_translated : machine -> n -> n -> bool

type pair = nat * symbol

val pairs : nat -> pair list

type known = zipper

val before : known -> pair -> action -> known option

val entries : nat -> machine -> (pair * action) list

val leads : (pair * action) list -> nat -> known -> bool

val is_backward : nat -> machine -> n -> bool

val append : positive -> positive -> positive

module PositiveMap :
 sig
  type key = positive

  type 'a tree =
  | Leaf
  | Node of 'a tree * 'a option * 'a tree

  type 'a t = 'a tree

  val empty : 'a1 t

  val find : key -> 'a1 t -> 'a1 option

  val add : key -> 'a1 -> 'a1 t -> 'a1 t

  val xelements : 'a1 t -> key -> (key * 'a1) list

  val elements : 'a1 t -> (key * 'a1) list
 end

type node = positive * nat

type edges = node list option

type reader = { on_blank : positive; on_one : positive;
                edges_by_state : (edges * edges) list }

val is_node : node -> node -> bool

val is_in : node -> node list -> bool

val readers_of : reader list -> reader PositiveMap.t

val delta : reader PositiveMap.t -> positive -> symbol -> positive

val edges0 : machine -> reader PositiveMap.t -> node -> symbol -> edges

val leads_back :
  machine -> reader PositiveMap.t -> node -> symbol -> symbol -> node list ->
  bool

val fits_entry :
  machine -> reader PositiveMap.t -> positive -> (pair * action) -> bool

val is_reduced_by :
  nat -> machine -> reader PositiveMap.t -> node list -> bool

val is_reduced : nat -> machine -> reader list -> node list -> bool

type local = { left_word : word; local_state : nat; local_here : symbol;
               right_word : word }

val word_eq_dec : word -> word -> bool

val local_eq_dec : local -> local -> bool

val has_word : word -> word list -> bool

val has_local : local -> local list -> bool

val stays : machine -> word list -> word list -> local list -> local -> bool

val is_closed : machine -> nat -> word list -> word list -> local list -> bool

type vector = z list

val coordinate : nat -> vector -> z

type coset = { base : vector; rows : vector list }

val less : vector -> z -> vector -> vector

val unit0 : nat -> vector

val counted : vector -> z -> nat option -> vector

val first_place : vector -> nat

val is_sum : vector -> vector list -> bool

val euclid : nat -> nat -> vector -> vector -> vector * vector

val eliminate :
  nat -> vector list -> vector option -> vector list -> (vector
  option * vector list) option

type points =
| Unknown
| NoPoint
| Within of coset

val with_zero : points -> nat -> points

type transition = (nat * nat option) option

type automaton = (transition * transition) list

val goes : automaton -> nat -> symbol -> transition

type place = { on_left : nat; in_state : nat; on_cell : symbol; on_right : nat }

type item = place * coset

val is_place : place -> place -> bool

type uses = n option list

val uses_of : uses -> nat -> n option

val more_uses : n -> nat option -> n

val all_transitions : automaton -> ((nat * symbol) * transition) list

val are_closed : automaton -> uses -> bool

val put : 'a1 list -> nat -> 'a1 -> 'a1 list

val grown : automaton -> uses -> uses

val uses0 : automaton -> uses

val item_at : item list -> place -> coset option

val has_bit : n option -> nat -> bool

val is_settled : item list -> nat -> points -> place -> bool

val steps_to :
  uses -> uses -> item list -> nat -> coset -> nat option -> nat option ->
  place -> bool

val comes_to :
  automaton -> nat -> (nat -> symbol -> nat option -> bool) -> bool

val goes_on :
  machine -> automaton -> automaton -> uses -> uses -> item list -> nat ->
  item -> bool

val starts_blank : automaton -> bool

val starts_used : uses -> bool

val stands :
  machine -> automaton -> automaton -> uses -> uses -> item list -> nat ->
  bool

val is_counted : machine -> nat -> automaton -> automaton -> item list -> bool

type exponent = { number : n; fa : n; fb : n; fc : n; fd : n }

val once : exponent

val plus : exponent -> exponent -> exponent

val so_often : n -> exponent -> exponent

type exponents = { ea : exponent; eb : exponent; ec : exponent; ed : exponent }

val exponent_by : exponent -> exponents -> exponent

type block = word * exponent

type half = block list

type form = { left_half : half; form_state : nat; side : direction;
              right_half : half }

val half_by : half -> exponents -> half

val form_by : form -> exponents -> form

val block_eq_dec : block -> block -> bool

val form_eq_dec : form -> form -> bool

val power : word -> nat -> word

type equation =
| Split of word * exponent * exponent
| Symbols of word
| Roll of word * word * word * exponent
| Power of word * word * nat * exponent
| Empty of word
| Blanks of word * exponent

val sides : equation -> ((half * half) * bool) option

val behind : half -> half -> half option

val changed : nat -> half -> half -> bool -> half -> half option

val symbol_of : block -> symbol option

val taken : form -> ((half * symbol) * half) option

val turn : form -> form option

type move0 =
| Steps of n
| Turn
| Use of nat * exponents
| Again of exponent * exponent * exponent
| Together of nat * exponent * exponent * exponent
| Change of direction * nat * equation * bool

type script = move0 list

type rule = { is_left_open : bool; is_right_open : bool; from : form;
              to0 : form; scripts : (script * script option) }

val one_step : machine -> form -> form option

val half_used : bool -> bool -> half -> half -> half -> half option

val applied : bool -> bool -> rule -> exponents -> form -> form option

val var_a : exponent

val grouped : nat -> rule list -> nat -> rule option

val make :
  machine -> rule list -> rule list -> rule option -> bool -> bool -> move0
  -> form -> form option

val leads_to :
  machine -> rule list -> rule list -> rule option -> bool -> bool -> script
  -> form -> form -> bool

val none : exponent

val variables : exponent -> exponents

val a_and_one : exponent

val is_proved : machine -> rule list -> rule list -> rule -> bool

val is_by_induction : rule -> bool

val may_be_group : rule list -> bool

val is_group_proved : machine -> rule list -> rule list -> bool

val are_proved : machine -> rule list -> rule list list -> bool

val has_step : script -> bool

val blank_form : form

val is_by_rules :
  machine -> rule list list -> form -> exponents -> script -> exponents ->
  script -> bool

type certificate =
| Halts of n * n option
| Cycles of n * n
| Translated of n * n * direction
| Backwards of n
| Reduced of direction * reader list * node list
| Closed of nat * word list * word list * local list
| Counting of nat * automaton * automaton * item list
| ByRules of rule list list * form * exponents * script * exponents * script
| Assumed
| NoClaim

type verdict =
| Halting of n * n * nat * symbol
| Never
| Nothing

val count_N : symbol list -> n -> n

val score_N : zipper -> n

val is_claimed : n option -> n -> bool

val halting : machine -> n -> n option -> verdict

val never_if : bool -> verdict

val facing : direction -> machine -> machine

val table_eq_dec : table -> table -> bool

val judged : table list -> table -> certificate -> verdict

type tally = { halting_count : n; never_count : n; best : n;
               champions : table list; ones_best : n;
               ones_champions : table list; open0 : table list;
               refused : table list }

val nothing_yet : tally

val most : n -> table list -> n -> table list -> n * table list

val sum : tally -> tally -> tally

val halting_one : table -> n -> n -> tally

val never_one : tally

val open_one : table -> tally

val refused_one : table -> tally

type ledger = table -> certificate option

val walk : table list -> nat -> ledger -> nat -> table -> tally -> tally

val judge_part : table list -> nat -> table -> ledger -> tally

val closed : tally -> tally

val join : tally -> tally list -> tally

val judge :
  table list -> nat -> ledger -> (table -> ledger) -> ((table -> tally) ->
  table list -> tally list) -> tally

val skelet_1 : table

val skelet_10 : table

val skelet_15 : table

val skelet_17 : table

val skelet_26 : table

val skelet_33 : table

val skelet_34 : table

val skelet_35 : table

val eight : table list
