(* checker check BOOK CERT | weigh-check BOOK WEIGHTS CERT | place-check SLOTS CERT | audit AWARD LOG CERT | auction AWARD LOG

   Prints what cca prints for the same arguments; "auction" prints the book after the replies. The status is the one of cca, and 70 if there
   is not enough memory. The comment at the top of answers.ml states which part has to be believed. *)

(* the bytes of a file, read in order to its end, or until there are more than [most] *)
let load most name =
  let channel = open_in_bin name in
  let text = Buffer.create 65536 and piece = Bytes.create 65536 in
  let rec read_on () =
    let count = input channel piece 0 (Bytes.length piece) in
    Buffer.add_subbytes text piece 0 count;
    if count > 0 && Buffer.length text <= most then read_on ()
  in
  read_on ();
  close_in channel;
  Buffer.contents text

let () =
  match Answers.run { load; step = ignore } (List.tl (Array.to_list Sys.argv)) with
  | text, status ->
    print_string text;
    exit status
  | exception (Stack_overflow | Out_of_memory) ->
    prerr_endline "checker: there is not enough memory, so there is no answer";
    exit 70
