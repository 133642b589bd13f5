(* Hands records and ledgers to the judge, and prints what it answers:

     judge N LEDGER [PROCESSES]   the tree of N states: a ledger, ledgers one behind the other as contrib/pack.sh prints
                                  them (- is standard input), or a folder of a tree in parts, by so many processes
     judge part TABLE LEDGER      the tree below a table alone
     judge check                  records, one per line of standard input

   The report is that of `bb report` and `bb join`. Standard error names each record that is refused by its file and
   line, and says how many records of each kind were judged. It ends with 0 where the tree is complete, or each line was
   accepted; with 1 otherwise, with 2 after other words than these, with 4 where a file can't be read. *)
open Judging
open Reading
open Answering

let usage = "judge N LEDGER|FOLDER|- [PROCESSES], judge part TABLE LEDGER|-, judge check"

let whole_file path =
  let channel = open_in_bin path in
  Fun.protect ~finally:(fun () -> close_in channel) (fun () -> really_input_string channel (in_channel_length channel))

let whole_input channel =
  let text = Buffer.create 65536 in
  (try while true do Buffer.add_channel text channel 1 done with End_of_file -> ());
  Buffer.contents text

(* the parts of a folder; a root whose file isn't there is open *)
let each_of_folder folder f roots =
  let one root =
    let path = Filename.concat folder (text_of root ^ ".ledger") in
    with_part f root (if Sys.file_exists path then of_root (text_of root) path 1 (whole_file path) else None) in
  List.map one roots

(* so many processes share the roots; each writes its tallies into a pipe *)
let each_of_processes processes each f roots =
  let roots = Array.of_list roots in
  let share i = List.filter (fun k -> k mod processes = i) (List.init (Array.length roots) Fun.id) in
  let child i output =
    Array.fill kinds 0 256 0;
    faults := 0;
    let tallies = each f (List.map (fun k -> roots.(k)) (share i)) in
    Marshal.to_channel output (tallies, kinds, !faults) [];
    close_out output;
    Unix._exit 0 in
  let begun i =
    let input, output = Unix.pipe () in
    let process = Unix.fork () in
    if process = 0 then child i (Unix.out_channel_of_descr output);
    Unix.close output;
    (process, Unix.in_channel_of_descr input) in
  let inputs = Array.init processes begun in
  let all = Array.make (Array.length roots) None in
  let take i (process, input) =
    let tallies, more_kinds, more_faults = Marshal.from_channel input in
    ignore (Unix.waitpid [] process);
    List.iter2 (fun k tally -> all.(k) <- Some tally) (share i) tallies;
    Array.iteri (fun k more -> kinds.(k) <- kinds.(k) + more) more_kinds;
    faults := !faults + more_faults in
  Array.iteri take inputs;
  List.map Option.get (Array.to_list all)

(* ledgers one behind the other: the text of the next one, and the number of its first line *)
let next_ledger channel =
  let held = ref None and line = ref 0 in
  fun () ->
    let text = Buffer.create 65536 and first = ref (!line + 1) in
    (match !held with None -> () | Some header -> first := !line; Buffer.add_string text header; held := None);
    (try
       while !held = None do
         let next = input_line channel ^ "\n" in
         incr line;
         if Buffer.length text > 0 && Ledgers.is_header next then held := Some next
         else Buffer.add_string text next
       done
     with End_of_file -> ());
    if Buffer.length text = 0 then None else Some (!first, Buffer.contents text)

let finish root a =
  print_string (report root a);
  prerr_string (counts ());
  exit (if status a = "complete" && !faults = 0 then 0 else 1)

let of_states n path processes =
  let root = text_of (empty (nat n)) in
  let is_folder = path <> "-" && Sys.is_directory path in
  let trunk_path = if is_folder then Filename.concat path "trunk.ledger" else path in
  let next = next_ledger (if path = "-" then stdin else open_in_bin trunk_path) in
  let trunk = Option.bind (next ()) (fun (first, text) -> of_root root trunk_path first text) in
  let each =
    if not is_folder then each_of_stream path next
    else if processes = 1 then each_of_folder path
    else each_of_processes processes (each_of_folder path) in
  finish root (tree n trunk each)

let of_part root path =
  let table = table_of root in
  let text = if path = "-" then whole_input stdin else whole_file path in
  finish root (tree_below table (of_root root path 1 text))

let check () =
  let rec lines number =
    match input_line stdin with
    | exception End_of_file -> ()
    | line ->
        (match answer line with
         | Ok words -> print_string (words ^ "\n")
         | Error _ -> incr faults; Printf.printf "refused line %d\n" number);
        lines (number + 1) in
  lines 1;
  exit (if !faults > 0 then 1 else 0)

let obey words =
  match words with
  | [ "check" ] -> check ()
  | [ "part"; root; path ] -> of_part root path
  | [ n; path ] -> of_states (upto 7 n) path 1
  | [ n; path; processes ] -> of_states (upto 7 n) path (Stdlib.max 1 (upto 1_000 processes))
  | _ -> raise Bad

let () =
  Gc.set { (Gc.get ()) with minor_heap_size = 1 lsl 20; space_overhead = 200 };
  try obey (List.tl (Array.to_list Sys.argv)) with
  | Bad | Too_large | Invalid_argument _ -> prerr_endline usage; exit 2
  | Sys_error what -> prerr_endline what; exit 4
  | End_of_file -> prerr_endline "a process ended early"; exit 4
