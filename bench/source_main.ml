(* Times source.ml on the work that standard input says (src/ocaml.rs writes it). The first argument is the most turns.
   A line is one of
     name HOST ID ITEM, include HOST QUERY, open m HOST QUERY, open n HOST QUERY, alias KEY HOST QUERY, find QUERY, complete QUERY
   The calls after a line 'row', all of one sort, are timed together; registrations after a line 'apart' are only done. Each row
   prints a line: nanoseconds a call in the least turn, processor time a call in the mean of all turns, which holds the collections of
   garbage, how many names were found or lines listed, and a hash of the results. *)

open Source

type call =
  | Register of (table -> table)
  | Find of string
  | Complete of string

(* The segments of a query; cut within the call that takes it, as the product does. *)
let query (s : string) : query =
  let rec cut start i acc =
    if i = String.length s then List.rev acc
    else if s.[i] = '.' then cut (i + 1) (i + 1) (String.sub s start (i - start) :: acc)
    else cut start (i + 1) acc in
  cut 0 0 []

let call (line : string) : call =
  match String.split_on_char ' ' line with
  | ["name"; host; id; item] ->
    let item = int_of_string item in
    Register (fun tbl -> insert tbl (query host) id item)
  | ["include"; host; included] -> Register (fun tbl -> register_include tbl (query host) (query included))
  | ["open"; sort; host; included] -> Register (fun tbl -> register_open tbl (sort = "m") (query host) (query included))
  | ["alias"; key; host; included] -> Register (fun tbl -> register_alias tbl key (query host) (query included))
  | ["find"; q] -> Find q
  | ["complete"; q] -> Complete q
  | _ -> failwith line

(* A count and a hash of 32 bits. *)
let count = ref 0
let hash = ref 0
let number n = hash := (!hash * 31 + n) land 0xffffffff
let text s = number (String.length s); String.iter (fun c -> number (Char.code c)) s

let sum_item item = number (item lsr 32); number (item land 0xffffffff)

(* The source's result has no item: it is what trie_find_prefix has with the path. *)
let sum_lines tbl q =
  let items = List.map snd (trie_find_prefix tbl.tbl_lids q) in
  List.iter2 (fun line item ->
      incr count;
      text line.completion_candidate;
      text line.completion_annotation;
      number (Prims.to_int line.completion_match_length);
      sum_item item)
    (autocomplete_lid tbl q) items

let sum_found = function
  | None -> number 0
  | Some item -> incr count; number 1; sum_item item

external clock : unit -> int = "bench_clock" [@@noalloc]

let most = int_of_string Sys.argv.(1)
let longest = 400_000_000

(* Nanoseconds of the least turn, and of processor time in the mean. *)
let timed (run : unit -> unit) : float * float =
  let best = ref max_int and turns = ref 0 and begun = clock () and used = Sys.time () in
  while !turns < most && clock () - begun <= longest do
    let start = clock () in
    run ();
    best := min !best (clock () - start);
    incr turns
  done;
  (float_of_int !best, (Sys.time () -. used) *. 1e9 /. float_of_int !turns)

let find tbl q = trie_find_exact tbl.tbl_lids (query q)
let complete tbl q = autocomplete_lid tbl (query q)
let put tbl = function Register f -> f tbl | _ -> failwith "a row of several sorts"
let found = function Find q -> q | _ -> failwith "a row of several sorts"
let completed = function Complete q -> q | _ -> failwith "a row of several sorts"

(* One row on a table; the table after it. *)
let row (tbl : table) (calls : call list) : table =
  let ignore x = ignore (Sys.opaque_identity x) in
  count := 0;
  hash := 0;
  let (after, (least, mean)) =
    match calls with
    | [] -> failwith "an empty row"
    | Register _ :: _ ->
      let all () = List.fold_left put tbl calls in
      sum_lines (all ()) [];
      (all (), timed (fun () -> ignore (all ())))
    | Find _ :: _ ->
      let queries = List.map found calls in
      List.iter (fun q -> sum_found (find tbl q)) queries;
      (tbl, timed (fun () -> List.iter (fun q -> ignore (find tbl q)) queries))
    | Complete _ :: _ ->
      let queries = List.map completed calls in
      List.iter (fun q -> sum_lines tbl (query q)) queries;
      (tbl, timed (fun () -> List.iter (fun q -> ignore (complete tbl q)) queries)) in
  let n = float_of_int (List.length calls) in
  Printf.printf "%.1f %.1f %d %d\n" (least /. n) (mean /. n) !count !hash;
  after

let apart (tbl : table) (calls : call list) : table = List.fold_left put tbl calls

let () =
  let rec go tbl calls close =
    let close_all () = close tbl (List.rev calls) in
    match input_line stdin with
    | exception End_of_file -> ignore (close_all ())
    | "row" -> go (close_all ()) [] row
    | "apart" -> go (close_all ()) [] apart
    | line -> go tbl (call line :: calls) close in
  go empty [] apart
