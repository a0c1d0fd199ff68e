(*
   Copyright 2008-2016 Microsoft Research

   Licensed under the Apache License, Version 2.0 (the "License");
   you may not use this file except in compliance with the License.
   You may obtain a copy of the License at

       http://www.apache.org/licenses/LICENSE-2.0

   Unless required by applicable law or agreed to in writing, software
   distributed under the License is distributed on an "AS IS" BASIS,
   WITHOUT WARRANTIES OR CONDITIONS OF ANY KIND, either express or implied.
   See the License for the specific language governing permissions and
   limitations under the License.
*)

(* The source's functions for names in OCaml, in the source's order under its names, for the benchmark: FStarLang/FStar at
   d4b42c1b19, src/interactive/FStarC.Interactive.CompletionTable.fst. Changed: put into OCaml by hand as F* extracts it, each
   constructor with its one argument, a tuple where the source has one, and effectful arguments bound first; what the names table
   does not use is left out. Integers are those of Prims: F*'s own (prims_zarith.ml), or OCaml's (prims_ocaml.ml), which are
   faster. An item is a machine integer, its kind above the 32 bits of its number. *)

open Prims

(* The libraries' functions, and the interface's types. *)
module Util = struct
  let ( <= ) : Int.t -> Int.t -> bool = Stdlib.( <= )

  let starts_with (s : string) (prefix : string) : bool =
    let n = String.length prefix in
    let rec loop i = Int.equal i n || (String.unsafe_get s i = String.unsafe_get prefix i && loop (Int.succ i)) in
    n <= String.length s && loop 0
end

module List = struct
  include List

  let rec rev_map_onto f l acc =
    match l with
    | [] -> acc
    | h :: t -> rev_map_onto f t (f h :: acc)

  let rec last_opt = function
    | [] -> None
    | [x] -> Some x
    | _ :: t -> last_opt t
end

module Option = struct
  let bind o f =
    match o with
    | None -> None
    | Some x -> f x

  let dflt x = function
    | None -> x
    | Some y -> y
end

type query = string list

type lid_symbol = Int.t

type completion_result =
  { completion_match_length : int;
    completion_candidate : string;
    completion_annotation : string }

let string_compare (s1 : string) (s2 : string) : int = of_int (String.compare s1 s2)

(** * (Pairing) min-heaps * **)

type 'a heap =
  | EmptyHeap
  | Heap of ('a * 'a heap list)

let heap_merge (cmp : 'a -> 'a -> int) (h1 : 'a heap) (h2 : 'a heap) : 'a heap =
  match (h1, h2) with
  | (EmptyHeap, h) -> h
  | (h, EmptyHeap) -> h
  | (Heap (v1, hh1), Heap (v2, hh2)) ->
    let c = cmp v1 v2 in
    if c < int_zero then Heap (v1, h2 :: hh1) else Heap (v2, h1 :: hh2)

let heap_insert (cmp : 'a -> 'a -> int) (h : 'a heap) (v : 'a) : 'a heap = heap_merge cmp (Heap (v, [])) h

let rec heap_merge_pairs (cmp : 'a -> 'a -> int) (l : 'a heap list) : 'a heap =
  match l with
  | [] -> EmptyHeap
  | [h] -> h
  | h1 :: h2 :: hh ->
    let first = heap_merge cmp h1 h2 in
    let rest = heap_merge_pairs cmp hh in
    heap_merge cmp first rest

let heap_pop (cmp : 'a -> 'a -> int) (h : 'a heap) : ('a * 'a heap) option =
  match h with
  | EmptyHeap -> None
  | Heap (v, hh) ->
    let rest = heap_merge_pairs cmp hh in
    Some (v, rest)

let heap_from_list (cmp : 'a -> 'a -> int) (values : 'a list) : 'a heap = List.fold_left (heap_insert cmp) EmptyHeap values

(** * List functions * **)

let push_nodup (key_fn : 'a -> string) (x : 'a) (l : 'a list) : 'a list =
  match l with
  | [] -> [x]
  | h :: t -> if string_compare (key_fn x) (key_fn h) = int_zero then h :: t else x :: h :: t

let rec add_priorities (n : int) (acc : (int * 'a) list) (l : 'a list) : (int * 'a) list =
  match l with
  | [] -> acc
  | h :: t -> add_priorities (n + int_one) ((n, h) :: acc) t

let merge_increasing_lists_rev (key_fn : 'a -> string) (lists : 'a list list) : 'a list =
  let cmp v1 v2 =
    match (v1, v2) with
    | ((_, []), _) -> failwith "impossible"
    | (_, (_, [])) -> failwith "impossible"
    | ((pr1, h1 :: _), (pr2, h2 :: _)) ->
      let cmp_h = string_compare (key_fn h1) (key_fn h2) in
      if cmp_h <> int_zero then cmp_h else pr1 - pr2 in
  let rec aux (lists : (int * 'a list) heap) (acc : 'a list) : 'a list =
    match heap_pop cmp lists with
    | None -> acc
    | Some ((_, []), _) -> failwith "impossible"
    | Some ((_, [v]), lists) -> aux lists (push_nodup key_fn v acc)
    | Some ((pr, v :: tl), lists) ->
      let lists = heap_insert cmp lists (pr, tl) in
      aux lists (push_nodup key_fn v acc) in
  let lists = List.filter (fun x -> x <> []) lists in
  match lists with
  | [] -> []
  | [l] -> List.rev l
  | _ ->
    let lists = add_priorities int_zero [] lists in
    let heap = heap_from_list cmp lists in
    aux heap []

(** * Binary trees * **)

type 'a btree =
  | StrEmpty
  | StrBranch of (string * 'a * 'a btree * 'a btree)

let rec btree_insert_replace (bt : 'a btree) (k : string) (v : 'a) : 'a btree =
  match bt with
  | StrEmpty -> StrBranch (k, v, StrEmpty, StrEmpty)
  | StrBranch (k', v', lbt, rbt) ->
    let cmp = string_compare k k' in
    if cmp < int_zero then
      StrBranch (k', v', btree_insert_replace lbt k v, rbt)
    else if cmp > int_zero then
      StrBranch (k', v', lbt, btree_insert_replace rbt k v)
    else
      StrBranch (k', v, lbt, rbt)

let rec btree_find_exact (bt : 'a btree) (k : string) : 'a option =
  match bt with
  | StrEmpty -> None
  | StrBranch (k', v, lbt, rbt) ->
    let cmp = string_compare k k' in
    if cmp < int_zero then
      btree_find_exact lbt k
    else if cmp > int_zero then
      btree_find_exact rbt k
    else
      Some v

type prefix_match =
  { prefix : string option;
    completion : string }

type path_elem =
  { imports : string list;
    segment : prefix_match }

type path = path_elem list

let mk_path_el (imports : string list) (segment : prefix_match) : path_elem = { imports; segment }

let btree_find_prefix (bt : 'a btree) (prefix : string) : (prefix_match * 'a) list =
  let rec aux (bt : 'a btree) (prefix : string) (acc : (prefix_match * 'a) list) : (prefix_match * 'a) list =
    match bt with
    | StrEmpty -> acc
    | StrBranch (k, v, lbt, rbt) ->
      let cmp = string_compare k prefix in
      let include_middle = Util.starts_with k prefix in
      let explore_right = cmp <= int_zero || include_middle in
      let explore_left = cmp > int_zero in
      let matches = if explore_right then aux rbt prefix acc else acc in
      let matches = if include_middle then ({ prefix = Some prefix; completion = k }, v) :: matches else matches in
      let matches = if explore_left then aux lbt prefix matches else matches in
      matches in
  aux bt prefix []

let rec btree_fold (bt : 'a btree) (f : string -> 'a -> 'b -> 'b) (acc : 'b) : 'b =
  match bt with
  | StrEmpty -> acc
  | StrBranch (k, v, lbt, rbt) -> btree_fold lbt f (f k v (btree_fold rbt f acc))

(** * Tries * **)

let query_to_string (q : query) : string = String.concat "." q

type 'a name_collection =
  | Names of 'a btree
  | ImportedNames of (string * 'a names)
and 'a names = 'a name_collection list

type 'a trie =
  { bindings : 'a names;
    namespaces : 'a trie names }

let trie_empty = { bindings = []; namespaces = [] }

let rec names_find_exact (names : 'a names) (ns : string) : 'a option =
  let (result, names) =
    match names with
    | [] -> (None, None)
    | Names bt :: names -> (btree_find_exact bt ns, Some names)
    | ImportedNames (_, names) :: more_names -> (names_find_exact names ns, Some more_names) in
  match (result, names) with
  | (None, Some scopes) -> names_find_exact scopes ns
  | _ -> result

let rec trie_descend_exact (tr : 'a trie) (query : query) : 'a trie option =
  match query with
  | [] -> Some tr
  | ns :: query -> Option.bind (names_find_exact tr.namespaces ns) (fun scope -> trie_descend_exact scope query)

let rec trie_find_exact (tr : 'a trie) (query : query) : 'a option =
  match query with
  | [] -> failwith "Empty query in trie_find_exact"
  | [name] -> names_find_exact tr.bindings name
  | ns :: query -> Option.bind (names_find_exact tr.namespaces ns) (fun scope -> trie_find_exact scope query)

let names_insert (name_collections : 'a names) (id : string) (v : 'a) : 'a names =
  let (bt, name_collections) =
    match name_collections with
    | Names bt :: tl -> (bt, tl)
    | _ -> (StrEmpty, name_collections) in
  Names (btree_insert_replace bt id v) :: name_collections

let rec namespaces_mutate (namespaces : 'a trie names) (ns : string) (q : query) (rev_acc : query)
    (mut_node : 'a trie -> string -> query -> query -> 'a trie names -> 'a trie) (mut_leaf : 'a trie -> query -> 'a trie)
    : 'a trie names =
  let trie = Option.dflt trie_empty (names_find_exact namespaces ns) in
  names_insert namespaces ns (trie_mutate trie q rev_acc mut_node mut_leaf)

and trie_mutate (tr : 'a trie) (q : query) (rev_acc : query)
    (mut_node : 'a trie -> string -> query -> query -> 'a trie names -> 'a trie) (mut_leaf : 'a trie -> query -> 'a trie)
    : 'a trie =
  match q with
  | [] -> mut_leaf tr rev_acc
  | id :: q ->
    let ns' = namespaces_mutate tr.namespaces id q (id :: rev_acc) mut_node mut_leaf in
    mut_node tr id q rev_acc ns'

(* The source leaves mut_leaf to whoever applies the function further; extraction gives it a name. *)
let trie_mutate_leaf (tr : 'a trie) (query : query) : ('a trie -> query -> 'a trie) -> 'a trie =
  fun mut_leaf -> trie_mutate tr query [] (fun tr _ _ _ namespaces -> { tr with namespaces }) mut_leaf

let trie_insert (tr : 'a trie) (ns_query : query) (id : string) (v : 'a) : 'a trie =
  trie_mutate_leaf tr ns_query (fun tr _ -> { tr with bindings = names_insert tr.bindings id v })

let trie_import (tr : 'a trie) (host_query : query) (included_query : query) (mutator : 'a trie -> 'a trie -> string -> 'a trie)
    : 'a trie =
  let label = query_to_string included_query in
  let included_trie = Option.dflt trie_empty (trie_descend_exact tr included_query) in
  trie_mutate_leaf tr host_query (fun tr _ -> mutator tr included_trie label)

let trie_include (tr : 'a trie) (host_query : query) (included_query : query) : 'a trie =
  trie_import tr host_query included_query (fun tr inc label ->
      { tr with bindings = ImportedNames (label, inc.bindings) :: tr.bindings })

let trie_open_namespace (tr : 'a trie) (host_query : query) (included_query : query) : 'a trie =
  trie_import tr host_query included_query (fun tr inc label ->
      { tr with namespaces = ImportedNames (label, inc.namespaces) :: tr.namespaces })

let trie_add_alias (tr : 'a trie) (key : string) (host_query : query) (included_query : query) : 'a trie =
  trie_import tr host_query included_query (fun tr inc label ->
      trie_mutate_leaf tr [key] (fun _ _ -> { bindings = [ImportedNames (label, inc.bindings)]; namespaces = [] }))

let names_revmap (fn : 'a btree -> 'b) (name_collections : 'a names) : (string list * 'b) list =
  let rec aux (acc : (string list * 'b) list) (imports : string list) (name_collections : 'a names) : (string list * 'b) list =
    List.fold_left (fun acc c ->
        match c with
        | Names bt -> (imports, fn bt) :: acc
        | ImportedNames (nm, name_collections) -> aux acc (nm :: imports) name_collections)
      acc name_collections in
  aux [] [] name_collections

let btree_find_all (prefix : string option) (bt : 'a btree) : (prefix_match * 'a) list =
  btree_fold bt (fun k tr acc -> ({ prefix; completion = k }, tr) :: acc) []

type name_search_term =
  | NSTAll
  | NSTNone
  | NSTPrefix of string

let names_find_rev (names : 'a names) (id : name_search_term) : (path_elem * 'a) list =
  let matching_values_per_collection_with_imports =
    match id with
    | NSTNone -> []
    | NSTAll -> names_revmap (btree_find_all None) names
    | NSTPrefix "" -> names_revmap (btree_find_all (Some "")) names
    | NSTPrefix id -> names_revmap (fun bt -> btree_find_prefix bt id) names in
  let matching_values_per_collection =
    List.map (fun (imports, matches) -> List.map (fun (segment, v) -> (mk_path_el imports segment, v)) matches)
      matching_values_per_collection_with_imports in
  merge_increasing_lists_rev (fun (path_el, _) -> path_el.segment.completion) matching_values_per_collection

let rec trie_find_prefix' (tr : 'a trie) (path_acc : path) (query : query) (acc : (path * 'a) list) : (path * 'a) list =
  let (ns_search_term, bindings_search_term, query) =
    match query with
    | [] -> (NSTAll, NSTAll, [])
    | [id] -> (NSTPrefix id, NSTPrefix id, [])
    | ns :: query -> (NSTPrefix ns, NSTNone, query) in
  let matching_namespaces_rev = names_find_rev tr.namespaces ns_search_term in
  let acc_with_recursive_bindings =
    List.fold_left (fun acc (path_el, trie) -> trie_find_prefix' trie (path_el :: path_acc) query acc)
      acc matching_namespaces_rev in
  let matching_bindings_rev = names_find_rev tr.bindings bindings_search_term in
  List.rev_map_onto (fun (path_el, v) -> (List.rev (path_el :: path_acc), v))
    matching_bindings_rev acc_with_recursive_bindings

let trie_find_prefix (tr : 'a trie) (query : query) : (path * 'a) list = trie_find_prefix' tr [] query []

(** * High level interface * **)

(* Modules are left out, but not their table's place. *)
type table =
  { tbl_lids : lid_symbol trie;
    tbl_mods : unit trie }

let empty : table = { tbl_lids = trie_empty; tbl_mods = trie_empty }

let insert (tbl : table) (host_query : query) (id : string) (c : lid_symbol) : table =
  { tbl with tbl_lids = trie_insert tbl.tbl_lids host_query id c }

let register_alias (tbl : table) (key : string) (host_query : query) (included_query : query) : table =
  { tbl with tbl_lids = trie_add_alias tbl.tbl_lids key host_query included_query }

let register_include (tbl : table) (host_query : query) (included_query : query) : table =
  { tbl with tbl_lids = trie_include tbl.tbl_lids host_query included_query }

let register_open (tbl : table) (is_module : bool) (host_query : query) (included_query : query) : table =
  if is_module then
    register_include tbl host_query included_query
  else
    { tbl with tbl_lids = trie_open_namespace tbl.tbl_lids host_query included_query }

let string_of_path (path : path) : string = String.concat "." (List.map (fun el -> el.segment.completion) path)

let match_length_of_path (path : path) : int =
  let (length, (last_prefix, last_completion_length)) =
    List.fold_left (fun acc elem ->
        let (acc_len, _) = acc in
        match elem.segment.prefix with
        | Some prefix ->
          let completion_len = of_int (String.length elem.segment.completion) in
          (acc_len + int_one + completion_len, (prefix, completion_len))
        | None -> acc)
      (int_zero, ("", int_zero)) path in
  length - int_one - last_completion_length + of_int (String.length last_prefix)

let first_import_of_path (path : path) : string option =
  match path with
  | [] -> None
  | { imports; _ } :: _ -> List.last_opt imports

let completion_result_of_lid (x : path * lid_symbol) : completion_result =
  let (path, _lid) = x in
  let completion_match_length = match_length_of_path path in
  let completion_candidate = string_of_path path in
  { completion_match_length; completion_candidate; completion_annotation = Option.dflt "" (first_import_of_path path) }

let autocomplete_lid (tbl : table) (query : query) : completion_result list =
  List.map completion_result_of_lid (trie_find_prefix tbl.tbl_lids query)
