(* Reads tables and certificates from their texts (docs/FORMATS.md), and prints tables. Nothing here is proved, and
   nothing has to be: whatever a certificate is read as, the judge answers truly of its table. *)
open Judging

(* what isn't read, and a number over its limit *)
exception Bad
exception Too_large

(* numbers: those of Coq are binary ones, or unary *)
let rec positive k = if k = 1 then XH else if k land 1 = 1 then XI (positive (k lsr 1)) else XO (positive (k lsr 1))
let number k = if k = 0 then N0 else Npos (positive k)
let rec int_of_positive = function XH -> 1 | XO p -> 2 * int_of_positive p | XI p -> (2 * int_of_positive p) + 1
let int_of_number = function N0 -> 0 | Npos p -> int_of_positive p
let rec int_of_nat = function O -> 0 | S k -> 1 + int_of_nat k

let nat k =
  if k > 10_000 then raise Too_large;
  let rec made k = if k = 0 then O else S (made (k - 1)) in
  made k

(* a number in decimal, without a leading zero, up to a limit; without one, a record could ask for a run of years. It is
   read digit by digit into Coq's own, so it is read rightly where the machine's numbers are small, as in a browser. *)
let ten = number 10
let digits = Array.init 10 number

let number_within most =
  let with_digit x c =
    let x = N.add (N.mul ten x) digits.(Char.code c - 48) in
    if N.ltb most x then raise Too_large else x in
  fun text ->
    let is_digit c = '0' <= c && c <= '9' in
    if text = "" || (text.[0] = '0' && text <> "0") || not (String.for_all is_digit text) then raise Bad;
    String.fold_left with_digit N0 text

let number_upto limit = number_within (number limit)
let upto limit text = int_of_number (number_upto limit text)
let nat_of text = nat (upto 10_000 text)

(* a number of Coq's in decimal: its digits, the last one first, are doubled for each binary one *)
let rec doubled carry = function
  | [] -> if carry = 0 then [] else [ carry ]
  | d :: l -> let d = (2 * d) + carry in (d mod 10) :: doubled (d / 10) l

let rec last_digits = function XH -> [ 1 ] | XO p -> doubled 0 (last_digits p) | XI p -> doubled 1 (last_digits p)

let decimal = function
  | N0 -> "0"
  | Npos p -> String.concat "" (List.rev_map string_of_int (last_digits p))

(* tables: states are made once *)
let states = Array.init 8 nat
let state_of c = if c < 'A' || c > 'G' then raise Bad else states.(Char.code c - 65)
let symbol_of = function '0' -> Blank | '1' -> One | _ -> raise Bad
let direction_of = function 'L' -> Left | 'R' -> Right | _ -> raise Bad

let entry_at text n k =
  let state = text.[k + 2] in
  if text.[k] = '-' && text.[k + 1] = '-' && state = '-' then None
  else
    let write = symbol_of text.[k] and move = direction_of text.[k + 1] in
    if state = 'Z' || state = 'H' then None
    else if Char.code state - 65 >= n then raise Bad
    else Some { write; move; next = state_of state }

let table_of text =
  let n = (String.length text + 1) / 7 in
  if (7 * n) - 1 <> String.length text || n < 1 || n > 7 then raise Bad;
  let row q =
    if q > 0 && text.[(7 * q) - 1] <> '_' then raise Bad;
    (entry_at text n (7 * q), entry_at text n ((7 * q) + 3)) in
  List.init n row

let put_entry text k = function
  | None -> Bytes.blit_string "---" 0 text k 3
  | Some a ->
      Bytes.set text k (match a.write with Blank -> '0' | One -> '1');
      Bytes.set text (k + 1) (match a.move with Left -> 'L' | Right -> 'R');
      Bytes.set text (k + 2) (Char.chr (65 + int_of_nat a.next))

let text_of table =
  let text = Bytes.make ((7 * List.length table) - 1) '_' in
  List.iteri (fun q (a, b) -> put_entry text (7 * q) a; put_entry text ((7 * q) + 3) b) table;
  Bytes.unsafe_to_string text

(* parts of fields *)
let rest_of text k = String.sub text k (String.length text - k)
let side_of = function "L" -> Left | "R" -> Right | _ -> raise Bad
let array between text = Array.of_list (String.split_on_char between text)
let word text = List.map symbol_of (List.of_seq (String.to_seq text))

(* F and A: m states of the first automaton, and where it goes; where each state of the second one goes, by numbers *)
let reduced side m goes edges keep =
  let n = Array.length edges / (2 * m) in
  if n < 1 || n > 7 || Array.length edges <> 2 * m * n || Array.length goes <> 2 * m then raise Bad;
  let node k = (positive ((k / n) + 1), states.(k mod n)) in
  let listed k = Option.map (List.map node) edges.(k) in
  let reader q =
    { on_blank = positive (goes.(2 * q) + 1);
      on_one = positive (goes.((2 * q) + 1) + 1);
      edges_by_state = List.init n (fun f -> let k = 2 * ((q * n) + f) in (listed k, listed (k + 1))) } in
  Reduced (side, List.init m reader, List.map node keep)

let hexadecimal c =
  match c with '0' .. '9' -> Char.code c - 48 | 'a' .. 'f' -> Char.code c - 87 | _ -> raise Bad

(* the members of a set that is written as a number in hexadecimal *)
let members text most =
  let long = String.length text in
  let has k = let d = k / 4 in d < long && (hexadecimal text.[long - 1 - d] lsr (k mod 4)) land 1 = 1 in
  List.filter has (List.init (most + 1) (fun k -> k))

(* F: a set with the halt state is what A doesn't list *)
let dense side m delta rows keep =
  let halt = Array.length rows / 2 in
  let edges text = let l = members text halt in if List.mem halt l then None else Some l in
  reduced side m (Array.map hexadecimal (Array.of_seq (String.to_seq delta))) (Array.map edges rows) (members keep halt)

let listed side m delta rows keep =
  let place = upto 1_000_000 in
  let edges = function
    | "-" -> None
    | "." -> Some []
    | text -> Some (List.map place (String.split_on_char '.' text)) in
  reduced side m (Array.map place delta) (Array.map edges rows) (Array.to_list (Array.map place keep))

(* N: words on the left are read from right to left, from the head outwards *)
let local g text =
  if String.length text <> (2 * g) + 2 then raise Bad;
  { left_word = List.rev (word (String.sub text 0 g)); local_state = state_of text.[g];
    local_here = symbol_of text.[g + 1]; right_word = word (String.sub text (g + 2) g) }

let closed_set g ls rs cs =
  let list f text = List.map f (String.split_on_char ',' text) in
  Closed (nat g, list (fun text -> List.rev (word text)) ls, list word rs, list (local g) cs)

(* W: counts are the letters a to z, and then A to Z *)
let count_of c =
  match c with 'a' .. 'z' -> Char.code c - 97 | 'A' .. 'Z' -> Char.code c - 65 + 26 | _ -> raise Bad

let transition = function
  | "-" -> None
  | "" -> raise Bad
  | text ->
      let last = String.length text - 1 in
      if text.[last] < 'A' then Some (nat_of text, None)
      else Some (nat_of (String.sub text 0 last), Some (nat (count_of text.[last])))

let automaton text =
  let rec rows = function a :: b :: l -> (transition a, transition b) :: rows l | [] -> [] | _ -> raise Bad in
  rows (String.split_on_char ',' text)

(* a whole number that may be negative *)
let whole =
  let absolute = number_upto 999_999_999 in
  fun text ->
    if text <> "" && text.[0] = '-' then Z.opp (Z.of_N (absolute (rest_of text 1))) else Z.of_N (absolute text)

(* a number for each count that has one: digits, and then the count's letter *)
let vector text =
  let numbers = Array.make 52 Z0 and from = ref 0 and highest = ref 0 in
  let letter k c =
    if c >= 'A' then begin
      let x = count_of c in
      numbers.(x) <- whole (String.sub text !from (k - !from));
      highest := Stdlib.max !highest x;
      from := k + 1
    end in
  String.iteri letter text;
  if text = "0" then [] else if !from <> String.length text then raise Bad
  else List.init (!highest + 1) (fun x -> numbers.(x))

(* where the first letter stands that is a state's *)
let state_place text =
  let k = ref 0 in
  while !k < String.length text && not (text.[!k] >= 'A' && text.[!k] <= 'G') do incr k done;
  if !k + 2 > String.length text then raise Bad;
  !k

let item text =
  match String.split_on_char ':' text with
  | at :: base :: rows ->
      let k = state_place at in
      ( { on_left = nat_of (String.sub at 0 k); in_state = state_of at.[k]; on_cell = symbol_of at.[k + 1];
          on_right = nat_of (rest_of at (k + 2)) },
        { base = vector base; rows = List.map vector rows } )
  | _ -> raise Bad

(* R *)
let factor = number_upto 1_000_000

let exponent text =
  let factors = Array.make 5 N0 and place = ref 0 and from = ref 0 in
  let ends k =
    factors.(!place) <- factor (String.sub text !from (k - !from));
    from := k + 1 in
  String.iteri (fun k c -> if c >= 'a' && c <= 'd' then begin ends k; place := Char.code c - 96 end) text;
  ends (String.length text);
  { number = factors.(0); fa = factors.(1); fb = factors.(2); fc = factors.(3); fd = factors.(4) }

let exponents texts =
  match List.map exponent texts @ List.init 4 (fun _ -> exponent "0") with
  | ea :: eb :: ec :: ed :: _ -> { ea; eb; ec; ed }
  | _ -> raise Bad

let start text = exponents (String.split_on_char '.' text)

let block text =
  match String.split_on_char '^' text with
  | [ w ] -> (word w, exponent "1")
  | [ w; e ] -> (word w, exponent e)
  | _ -> raise Bad

let half text = if text = "" then [] else List.map block (String.split_on_char '.' text)

let form text =
  let k = state_place text in
  { left_half = half (String.sub text 0 k); form_state = state_of text.[k];
    side = (match text.[k + 1] with '<' -> Left | '>' -> Right | _ -> raise Bad);
    right_half = half (rest_of text (k + 2)) }

let equation letter parts =
  match (letter, parts) with
  | 's', [ w; e; f ] -> Split (word w, exponent e, exponent f)
  | 'w', [ w ] -> Symbols (word w)
  | 'r', [ u; w; v; e ] -> Roll (word u, word w, word v, exponent e)
  | 'p', [ v; w; k; e ] -> Power (word v, word w, nat (upto 63 k), exponent e)
  | 'e', [ w ] -> Empty (word w)
  | 'b', [ w; e ] -> Blanks (word w, exponent e)
  | _ -> raise Bad

(* an equation at a place of a half: with a capital letter the other way round *)
let change half what parts =
  let last = String.length what - 1 in
  if last < 1 then raise Bad;
  let letter = what.[last] in
  Change (half, nat_of (String.sub what 0 last), equation (Char.lowercase_ascii letter) parts, letter < 'a')

let move_of text =
  if text = "" then raise Bad;
  match (text.[0], String.split_on_char '.' (rest_of text 1)) with
  | 't', [ "" ] -> Turn
  | 'u', rule :: parts -> Use (nat_of rule, exponents parts)
  | 'i', "" :: parts -> let x = exponents parts in Again (x.ea, x.eb, x.ec)
  | 'g', rule :: parts -> let x = exponents parts in Together (nat_of rule, x.ea, x.eb, x.ec)
  | 'l', what :: parts -> change Left what parts
  | 'r', what :: parts -> change Right what parts
  | _ -> Steps (number_upto 10_000 text)

let script text = if text = "" then [] else List.map move_of (String.split_on_char ',' text)

let is_open c = match c with 'o' -> true | 'b' -> false | _ -> raise Bad

let rule text =
  match String.split_on_char ':' text with
  | ends :: first :: second :: s :: rest when String.length ends = 2 ->
      { is_left_open = is_open ends.[0]; is_right_open = is_open ends.[1]; from = form first; to0 = form second;
        scripts = (script s, match rest with [] -> None | [ s ] -> Some (script s) | _ -> raise Bad) }
  | _ -> raise Bad

let by_rules rules family first begin_ next loop =
  let together text = List.map rule (String.split_on_char '&' text) in
  let groups = if rules = "-" then [] else List.map together (String.split_on_char ';' rules) in
  ByRules (groups, form family, start first, script begin_, start next, script loop)

(* in how many steps runs may halt, those of a late halt being more than the others, and when they may repeat *)
let early = number 100_000_000
let late = N.mul (number 100) early
let halting = number_within early
let halting_late text = let k = number_within late text in if N.ltb early k then k else raise Bad
let time = number_upto 10_000_000

let of_fields = function
  | [ "H"; k ] -> Halts (halting k, None)
  | [ "H"; k; s ] -> Halts (halting k, Some (halting s))
  | [ "L"; k ] -> Halts (halting_late k, None)
  | [ "L"; k; s ] -> Halts (halting_late k, Some (number_within late s))
  | [ "C"; i; j ] -> Cycles (time i, time j)
  | [ "T"; i; j; side ] -> Translated (time i, time j, side_of side)
  | [ "B"; d ] -> Backwards (number_upto 1_000 d)
  | [ "F"; side; m; delta; rows; keep ] -> dense (side_of side) (upto 16 m) delta (array ',' rows) keep
  | [ "A"; side; m; delta; rows; keep ] ->
      listed (side_of side) (upto 4_096 m) (array ',' delta) (array ',' rows) (array ',' keep)
  | [ "N"; g; ls; rs; cs ] -> closed_set (upto 8 g) ls rs cs
  | [ "W"; i; j; left; right; cosets ] ->
      let items = List.map item (String.split_on_char ',' cosets) in
      Counting (nat (upto 52 i + upto 52 j), automaton left, automaton right, items)
  | [ "R"; rules; family; first; begin_; next; loop ] -> by_rules rules family first begin_ next loop
  | [ "P" ] -> Assumed
  | [ "U" ] -> NoClaim
  | _ -> raise Bad

(* the certificate of a record, by what stands behind its table *)
type read = Read of certificate | Unread | Large

let certificate text =
  match of_fields (String.split_on_char ' ' text) with
  | c -> Read c
  | exception Too_large -> Large
  | exception (Bad | Invalid_argument _ | Failure _ | Division_by_zero) -> Unread
