(* The judge as functions of JavaScript, by web/export.js: of a record what is answered, or why it is refused; of ledgers, one
   behind the other, the report and how many records of each kind were judged, behind the faults that were named. *)
open Judging
open Reading
open Answering

external export : string -> (string -> string) -> unit = "judge_export"

let record line = match answer line with Ok words -> words | Error why -> "refused " ^ why

(* the tree of all states, where a ledger's root is the empty table, or that below its root *)
let tally_of next trunk =
  let root = table_of trunk.Ledgers.root in
  let n = List.length root in
  if root = empty (nat n) then tree n (Some trunk) (each_of_stream trunk.path next) else tree_below root (Some trunk)

let ledger text =
  faults := 0;
  Array.fill kinds 0 256 0;
  let named = Buffer.create 64 in
  tell := (fun fault -> Buffer.add_string named (fault ^ "\n"));
  let next = Ledgers.next_of_text text in
  match Option.bind (next ()) (fun (first, text) -> Ledgers.of_text "ledger" first text) with
  | None -> "refused its first line isn't the header of a ledger"
  | Some trunk -> (
      match report trunk.root (tally_of next trunk) with
      | exception (Bad | Invalid_argument _) -> "refused its header names no table"
      | exception (Stack_overflow | Out_of_memory) -> "refused its check takes more memory than there is here"
      | text -> Buffer.contents named ^ text ^ counts ())

let () =
  export "record" record;
  export "ledger" ledger
