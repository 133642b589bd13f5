(* Ledgers as texts: which record a table has. A text is kept whole, with the place of the last record of each table. *)
open Reading

type t = {
  path : string;         (* its name, for what is said of it *)
  root : string;         (* the table that its header names *)
  version : char;
  text : string;
  first : int;           (* the number of its first line *)
  places : int array     (* by the hash of a table: where its line begins, or -1 *)
}

(* the end of the line that begins at a place *)
let line_end text from = match String.index_from_opt text from '\n' with None -> String.length text | Some k -> k

(* the end of its first word *)
let word_end text from =
  let k = ref from in
  while !k < String.length text && text.[!k] <> ' ' && text.[!k] <> '\n' do incr k done;
  !k

let hash text from until =
  let h = ref 0 in
  for k = from to until - 1 do h := (!h * 31) + Char.code (String.unsafe_get text k) done;
  !h lxor (!h lsr 17)

let is_word text from until word =
  until - from = String.length word
  && (let k = ref 0 in
      while from + !k < until && String.unsafe_get text (from + !k) = String.unsafe_get word !k do incr k done;
      from + !k = until)

(* where a table's record has its place, or would have it *)
let slot text places word h =
  let mask = Array.length places - 1 in
  let k = ref (h land mask) in
  let is_other from = not (is_word text from (word_end text from) word) in
  while places.(!k) >= 0 && is_other places.(!k) do k := (!k + 1) land mask done;
  !k

(* the lines of a text from a place on *)
let iter_lines f text from =
  let k = ref from in
  while !k < String.length text do
    f !k;
    k := line_end text !k + 1
  done

let placed text from =
  let count = ref 0 in
  iter_lines (fun _ -> incr count) text from;
  let size = ref 8 in
  while !size < 2 * !count do size := 2 * !size done;
  let places = Array.make !size (-1) in
  iter_lines (fun k ->
      let until = word_end text k in
      places.(slot text places (String.sub text k (until - k)) (hash text k until)) <- k) text from;
  places

(* whether a line is a header; its table *)
let header_of line =
  if String.length line < 12 then None
  else match String.sub line 0 12 with
    | "bb-ledger 1 " | "bb-ledger 2 " -> Some (line.[10], rest_of line 12)
    | _ -> None

let is_header line = String.length line > 11 && header_of line <> None

(* gives the ledgers of a text, one behind the other: the number of the first line, and the text *)
let next_of_text text =
  let from = ref 0 and line = ref 1 in
  let rec past k =
    incr line;
    let next = line_end text k + 1 in
    if next >= String.length text then String.length text
    else if text.[next] = 'b' && is_header (String.sub text next (line_end text next - next)) then next
    else past next in
  fun () ->
    if !from >= String.length text then None
    else begin
      let begun = !from and first = !line in
      from := past begun;
      Some (first, String.sub text begun (!from - begun))
    end

(* the ledger of a text whose first line has the number `first`; none where that isn't a header *)
let of_text path first text =
  let until = line_end text 0 in
  match header_of (String.sub text 0 until) with
  | None -> None
  | Some (version, root) ->
      let places = placed text (min (until + 1) (String.length text)) in
      Some { path; root; version; text; first; places }

(* where a table's record stands *)
let place ledger table =
  let k = ledger.places.(slot ledger.text ledger.places table (hash table 0 (String.length table))) in
  if k < 0 then None else Some k

let line_at ledger k = String.sub ledger.text k (line_end ledger.text k - k)

(* the text of a record behind its table *)
let claim_at ledger k =
  let from = word_end ledger.text k + 1 and until = line_end ledger.text k in
  if from > until then "" else String.sub ledger.text from (until - from)

(* In a ledger of version 1 a record that halts has no score, in one of version 2 it has one. *)
let is_halting claim = claim <> "" && (claim.[0] = 'H' || claim.[0] = 'L')

let is_of_version ledger claim =
  (not (is_halting claim)) || (List.length (String.split_on_char ' ' claim) = 2) = (ledger.version = '1')

let number_of ledger k =
  let count = ref ledger.first in
  for i = 0 to k - 1 do if ledger.text.[i] = '\n' then incr count done;
  !count
