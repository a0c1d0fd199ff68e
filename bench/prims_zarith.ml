(* F*'s integers: of any size, by the library Zarith. *)
type int = Z.t

let ( + ) = Z.add
let ( - ) = Z.sub
let ( < ) = Z.lt
let ( > ) = Z.gt
let ( <= ) = Z.leq
let of_int = Z.of_int
let to_int = Z.to_int
let int_zero = Z.zero
let int_one = Z.one
