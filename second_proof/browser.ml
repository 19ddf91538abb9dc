(* The checker in a browser, and in node. It gives JavaScript the function cca(words, load, step), which returns { text, status }: the text
   that is printed for these arguments, and the status. It returns { fault } if there is no answer. load(most, name) returns the bytes of a
   file as a Uint8Array, or null if there are none; step(name) is called at each step of Answers.host. spelling.ml answers the arguments
   "award-line AWARD" and "log-line AWARD LOG". *)
open Js_of_ocaml

let called f arguments = Js.Unsafe.fun_call f arguments

let host load step : Answers.host =
  let bytes most name =
    let found : Typed_array.uint8Array Js.t Js.opt = called load [| Js.Unsafe.inject most; Js.Unsafe.inject (Js.string name) |] in
    match Js.Opt.to_option found with Some bytes -> Typed_array.String.of_uint8Array bytes | None -> raise (Sys_error name)
  in
  { load = bytes; step = (fun name -> called step [| Js.Unsafe.inject (Js.string name) |]) }

let answered words host =
  let whole = host.Answers.load Answers.cert_bytes in
  match words with
  | [ "award-line"; award ] -> (string_of_int (Spelling.award_line (whole award)), 0)
  | [ "log-line"; award; log ] -> (string_of_int (Spelling.log_line (whole award) (whole log)), 0)
  | _ -> Answers.run host words

let run words load step =
  let words = List.map Js.to_string (Array.to_list (Js.to_array words)) in
  match answered words (host load step) with
  | text, status -> Js.Unsafe.obj [| ("text", Js.Unsafe.inject (Js.bytestring text)); ("status", Js.Unsafe.inject status) |]
  | exception (Stack_overflow | Out_of_memory) -> Js.Unsafe.obj [| ("fault", Js.Unsafe.inject (Js.string "not enough memory or stack")) |]

let () = Js.export "cca" (Js.wrap_callback run)
