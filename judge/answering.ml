(* What is answered of records and of trees: of a record as by `bb check`, of a tree the report of `bb report` and `bb join`. The
   program (main.ml) and the page (web/browser.ml) say it on. *)
open Judging
open Reading

(* how many faults were named, where each is told, and how many records of each kind were looked up *)
let faults = ref 0
let tell = ref prerr_endline
let kinds = Array.make 256 0

(* names a fault at a line of a text *)
let say path line what =
  incr faults;
  !tell (path ^ ": line " ^ string_of_int line ^ ": refused: " ^ what)

(* the eight tables of the kind P never halt: that is assumed of five states *)
let assumed n = if n = 5 then eight else []

(* what is answered of a table and what stands behind it, or why that is refused; of the kind P, that it is assumed *)
let answer_of table claim =
  match certificate claim with
  | Unread -> Error "its certificate can't be read"
  | Large -> Error "a number in its certificate is over its limit"
  | Read NoClaim -> Ok "undecided"
  | Read c -> (
      match (judged (assumed (List.length table)) table c, c) with
      | Nothing, _ -> Error "its certificate doesn't hold for the table"
      | Never, Assumed -> Ok "never, taken on trust"
      | Never, _ -> Ok "never"
      | Halting (k, _, _, _), Halts (_, None) -> Ok ("halts " ^ decimal k)
      | Halting (k, s, _, _), _ -> Ok ("halts " ^ decimal k ^ " ones " ^ decimal s))

let answer line =
  let text, claim =
    match String.index_opt line ' ' with
    | None -> (line, "")
    | Some k -> (String.sub line 0 k, rest_of line (k + 1)) in
  match table_of text with
  | exception (Bad | Invalid_argument _) -> Error "it begins with no table"
  | table -> (
      match answer_of table claim with
      | answer -> Result.map (fun words -> text_of table ^ " " ^ words) answer
      | exception (Stack_overflow | Out_of_memory) -> Error "its check takes more memory than there is here")

(* a ledger as the judge asks for it *)
let look ledger table =
  match Ledgers.place ledger (text_of table) with
  | None -> None
  | Some k -> (
      let claim = Ledgers.claim_at ledger k in
      if claim <> "" then kinds.(Char.code claim.[0]) <- kinds.(Char.code claim.[0]) + 1;
      match certificate claim with
      | Read c when Ledgers.is_of_version ledger claim -> Some c
      | _ -> Some NoClaim)

let look_up = function None -> fun _ -> None | Some ledger -> look ledger

(* names the records of a ledger that were refused; those of the kind U claim nothing, and are holdouts *)
let tell_refused ledger tally =
  let tell_of table =
    match Ledgers.place ledger (text_of table) with
    | Some k when Ledgers.claim_at ledger k <> "U" ->
        let line = Ledgers.line_at ledger k in
        let shown = if String.length line > 100 then String.sub line 0 100 ^ ".." else line in
        say ledger.path (Ledgers.number_of ledger k) shown
    | _ -> () in
  List.iter tell_of (List.sort compare tally.refused)

(* a part, where it is the ledger of that root *)
let of_root root path first text =
  match Ledgers.of_text path first text with
  | Some ledger when ledger.root = root -> Some ledger
  | _ -> say path first ("this isn't the header of a ledger of " ^ root); None

(* one function for each root, while its part is at hand *)
let current = ref None
let part _ = look_up !current

let with_part f root ledger =
  current := ledger;
  let tally = f root in
  Option.iter (fun ledger -> tell_refused ledger tally) ledger;
  current := None;
  tally

(* the parts of a stream, in any order; a root that has none is open *)
let each_of_stream path next f roots =
  let tallies = Hashtbl.create 1024 and waiting = Hashtbl.create 1024 in
  List.iter (fun root -> Hashtbl.replace waiting (text_of root) root) roots;
  let take first text =
    match Ledgers.of_text path first text with
    | Some ledger when Hashtbl.mem waiting ledger.root ->
        Hashtbl.replace tallies ledger.root (with_part f (Hashtbl.find waiting ledger.root) (Some ledger));
        Hashtbl.remove waiting ledger.root
    | _ -> say path first "this isn't the header of a part that is open" in
  let rec all () = match next () with None -> () | Some (first, text) -> take first text; all () in
  all ();
  let tally_of root = match Hashtbl.find_opt tallies (text_of root) with None -> with_part f root None | Some b -> b in
  List.map tally_of roots

(* the tree of n states, by its trunk and what gives its parts; the tree below a table, by its ledger *)
let tree n trunk each =
  let a = judge (assumed n) (nat n) (look_up trunk) part each in
  Option.iter (fun trunk -> tell_refused trunk a) trunk;
  a

let tree_below root ledger =
  let f table = let n = List.length table in judge_part (assumed n) (nat n) table (part table) in
  with_part f root ledger

let status a = if a.open0 <> [] then "working" else if a.refused <> [] then "holdouts" else "complete"

(* the report of bb; holdouts are the tables whose record doesn't stand, or claims nothing *)
let report root a =
  let text = Buffer.create 1024 in
  let line word value = Buffer.add_string text (word ^ " " ^ value ^ "\n") in
  let lines word tables = List.iter (line word) (List.sort compare (List.map text_of tables)) in
  let holdouts = number (List.length a.refused) and opened = number (List.length a.open0) in
  let greatest k = if k = N0 then "none" else decimal k in
  line "root" root;
  line "status" (status a);
  line "nodes" (decimal (N.add (N.add a.halting_count a.never_count) (N.add holdouts opened)));
  line "halting" (decimal a.halting_count);
  line "never" (decimal a.never_count);
  line "holdouts" (decimal holdouts);
  line "open" (decimal opened);
  line "best" (greatest a.best);
  lines "champion" a.champions;
  line "ones" (greatest a.ones_best);
  lines "ones_champion" a.ones_champions;
  lines "holdout" a.refused;
  Buffer.contents text

(* how many records of each kind were judged, a line each *)
let counts () =
  let count kind =
    let many = kinds.(Char.code kind) and trusted = if kind = 'P' then ", taken on trust\n" else "\n" in
    if many > 0 then String.make 1 kind ^ " " ^ string_of_int many ^ trusted else "" in
  String.concat "" (List.map count (List.of_seq (String.to_seq "HLCTBFANWRPU")))
