(* Integers of OCaml, in place of F*'s. *)
type nonrec int = int

external ( + ) : int -> int -> int = "%addint"
external ( - ) : int -> int -> int = "%subint"
external ( < ) : int -> int -> bool = "%lessthan"
external ( > ) : int -> int -> bool = "%greaterthan"
external ( <= ) : int -> int -> bool = "%lessequal"
external of_int : Int.t -> int = "%identity"
external to_int : int -> Int.t = "%identity"

let int_zero = 0
let int_one = 1
