(* The answers of the checker, for a command line and for a browser: [run host words] returns the text that is printed for these arguments,
   and the status.

   The answers and their texts are Coq's. The part that is written by hand reads the files: it reports which text isn't of its form, only by
   docs/FORMATS.md and docs/CERTIFICATES.md, and proposes what the others state. An answer on the tests counts only if Coq prints what was
   proposed as the bytes of the files. Awards and logs have to be in their plain spelling.

   No number of OCaml here is above 2^30: in a browser they have 32 bits. *)
open Tests

(* ---- the numbers of OCaml as numbers of Coq ---- *)

let nat_of k =
  let rec go k acc = if k = 0 then acc else go (k - 1) (S acc) in
  go k O

let rec int_of_nat = function O -> 0 | S k -> 1 + int_of_nat k

let rec positive k = if k = 1 then XH else if k land 1 = 1 then XI (positive (k lsr 1)) else XO (positive (k lsr 1))
let z_of k = if k = 0 then Z0 else if k > 0 then Zpos (positive k) else Zneg (positive (-k))

let rec power_of_two k = if k = 0 then XH else XO (power_of_two (k - 1))
let wide = Zpos (power_of_two 120)
let ten9 = z_of 1_000_000_000

exception Refused of int (* the byte where the first faulty line begins *)
exception Limit of string * int

(* ---- lines ---- *)

type reader = { text : string; mutable at : int; mutable start : int }

let reader text = { text; at = 0; start = 0 }
let bad r = raise (Refused r.start)
let need r right = if not right then bad r

let line r =
  r.start <- r.at;
  match String.index_from_opt r.text r.at '\n' with
  | None -> bad r
  | Some stop ->
    let s = String.sub r.text r.at (stop - r.at) in
    r.at <- stop + 1;
    String.split_on_char ' ' s

let finish r = if r.at <> String.length r.text then raise (Refused r.at)
let word r w = need r (line r = [ w ])
let is_digit c = c >= '0' && c <= '9'
let digits s = s <> "" && String.for_all is_digit s && (s = "0" || s.[0] <> '0')

(* a number from low to high; one of more than 9 digits is above every high *)
let number r low high s =
  need r (digits s && String.length s <= 9);
  let k = int_of_string s in
  need r (low <= k && k <= high);
  k

let rec natural s =
  let l = String.length s in
  let last = if l <= 9 then s else String.sub s (l - 9) 9 in
  let low = z_of (int_of_string ("0u" ^ last)) in
  if l <= 9 then low else Z.add (Z.mul (natural (String.sub s 0 (l - 9))) ten9) low

(* a number from low to high, which may be large *)
let amount_in r low high s =
  need r (digits s && String.length s <= 17);
  let v = natural s in
  need r (not (Z.ltb v low || Z.ltb high v));
  v

(* a signed number strictly between -2^120 and 2^120 *)
let signed_of r s =
  let negative = s <> "" && s.[0] = '-' in
  let d = if negative then String.sub s 1 (String.length s - 1) else s in
  need r (digits d && not (negative && d = "0") && String.length d <= 40);
  let v = natural d in
  need r (Z.ltb v wide);
  if negative then Z.opp v else v

(* each spelling is read once, to save room *)
let spelled : (string, z) Hashtbl.t = Hashtbl.create 65536

let signed r s =
  match Hashtbl.find_opt spelled s with
  | Some v -> v
  | None ->
    let v = signed_of r s in
    Hashtbl.add spelled s v;
    v

let is_name s =
  let l = String.length s in
  let may c = (c >= 'a' && c <= 'z') || is_digit c || c = '_' in
  l >= 1 && l <= 20 && s.[0] >= 'a' && s.[0] <= 'z' && String.for_all may s

(* lists may be long, and a browser's stack is short *)
let map f l = List.rev (List.rev_map f l)
let count_off count f = List.init count (fun i -> f i)

(* ---- the book ---- *)

let amount_top = Zpos (power_of_two 42)
let price_top = Zpos (power_of_two 36)

type known_book = { book : book; names : string list; states : int }

let limited what count most = if count > most then raise (Limit (what, count))
let states_of supply = List.fold_left (fun a s -> a * (s + 1)) 1 supply

let read_supply r =
  match line r with
  | "supply" :: (_ :: _ as l) ->
    let supply = List.map (number r 1 999) l in
    limited "categories" (List.length supply) 6;
    limited "lots" (List.fold_left ( + ) 0 supply) 40;
    limited "states" (states_of supply) 16384;
    supply
  | _ -> bad r

let read_reserve r supply =
  match line r with
  | "reserve" :: l when List.length l = List.length supply -> List.map (amount_in r Z0 price_top) l
  | _ -> bad r

let cost reserve counts = List.fold_left2 (fun a c p -> Z.add a (Z.mul (z_of c) p)) Z0 counts reserve

(* the bid of a line, after a bid of the counts [before] *)
let read_bid r supply reserve before fields =
  need r (List.length fields = List.length supply + 1);
  let fields = List.rev fields in
  let counts = List.map2 (fun most s -> number r 0 most s) supply (List.rev (List.tl fields)) in
  need r (not (List.for_all (( = ) 0) counts));
  need r (before = [] || compare before counts < 0);
  (counts, amount_in r (cost reserve counts) amount_top (List.hd fields))

let rec read_bids r supply reserve bids =
  match line r with
  | "bid" :: fields ->
    let before = match bids with [] -> [] | (counts, _) :: _ -> counts in
    let bid = read_bid r supply reserve before fields in
    limited "bids" (List.length bids + 1) 600;
    read_bids r supply reserve (bid :: bids)
  | other -> (List.rev bids, other)

(* the names and bids of the bidders; [bidders] have been read, the last one first *)
let rec read_bidders r supply reserve bidders fields =
  match fields with
  | [ "end" ] -> List.rev bidders
  | [ "bidder"; name ] ->
    need r (is_name name && not (List.mem_assoc name bidders));
    limited "bidders" (List.length bidders + 1) 16;
    let bids, next = read_bids r supply reserve [] in
    read_bidders r supply reserve ((name, bids) :: bidders) next
  | _ -> bad r

let read_book text =
  let r = reader text in
  need r (line r = [ "book"; "1" ]);
  let supply = read_supply r in
  let reserve = read_reserve r supply in
  let bidders = read_bidders r supply reserve [] (line r) in
  finish r;
  let bid (counts, amount) = { lots = List.map nat_of counts; amount } in
  let offers = List.map (fun (_, bids) -> List.map bid bids) bidders in
  let book = { supply = List.map nat_of supply; reserves = reserve; offers } in
  { book; names = List.map fst bidders; states = states_of supply }

let read_weights names text =
  let r = reader text in
  need r (line r = [ "weights"; "1" ]);
  let weight name =
    match line r with
    | [ "weight"; n; s ] when n = name -> z_of (number r 1 20 s)
    | _ -> bad r
  in
  let weights = List.map weight names in
  word r "end";
  finish r;
  weights

(* ---- the slots ---- *)

type known_slots = { slots : slot_bidder list; slot_names : string list; band : int }

let rec read_places r last before bids =
  match line r with
  | [ "place"; s; a ] ->
    let start = number r (before + 1) last s in
    let amount = amount_in r Z0 amount_top a in
    read_places r last start ((start, amount) :: bids)
  | other -> (List.rev bids, other)

(* the name, the width and the bids of each bidder; [left] slots of the band are left *)
let rec read_slot_bidders r band left bidders fields =
  match fields with
  | [ "end" ] -> List.rev bidders
  | [ "bidder"; name; w ] ->
    let width = number r 1 left w in
    need r (is_name name && not (List.exists (fun (n, _, _) -> n = name) bidders));
    limited "bidders" (List.length bidders + 1) 6;
    let bids, next = read_places r (band - width + 1) 0 [] in
    read_slot_bidders r band (left - width) ((name, width, bids) :: bidders) next
  | _ -> bad r

let read_slots text =
  let r = reader text in
  need r (line r = [ "slots"; "1" ]);
  let band = match line r with [ "band"; s ] -> number r 1 999 s | _ -> bad r in
  limited "lots" band 40;
  let bidders = read_slot_bidders r band band [] (line r) in
  finish r;
  let slot_bid (start, amount) = { start = z_of start; offer = amount } in
  let slot_bidder (_, width, bids) = { width = z_of width; starts = List.map slot_bid bids } in
  { slots = List.map slot_bidder bidders; slot_names = List.map (fun (name, _, _) -> name) bidders; band }

(* ---- the certificate ---- *)

(* what differs between the two kinds: whether a choice has an order before it, and how many lines and entries a table has *)
type kind = { bidders : int; has_orders : bool; lines : int; entries : int }

let read_numbers r kind name =
  match line r with
  | w :: l when w = name && List.length l = kind.bidders -> List.map (number r 0 65535) l
  | _ -> bad r

let read_order r kind = if kind.has_orders then read_numbers r kind "order" else []

let read_table r kind name =
  word r name;
  let entries _ =
    match line r with
    | "t" :: l when List.length l = kind.entries -> map (signed r) l
    | _ -> bad r
  in
  count_off kind.lines entries

let read_one r name = match line r with [ w; s ] when w = name -> signed r s | _ -> bad r

(* in the file an order counts bidders from 1; a number without a bidder in the file has none here *)
let order_of order = List.map (fun k -> nat_of (if k = 0 then 65536 else k - 1)) order

let read_without r kind j =
  need r (line r = [ "without"; string_of_int (j + 1) ]);
  let order = read_order r kind in
  let choice = read_numbers r kind "choice" in
  let table = read_table r kind "table" in
  { wo_bidder = nat_of j; wo_order = order_of order; wo_choice = List.map nat_of choice; wo_table = table }

let read_members r kind =
  let rec rising last = function [] -> true | k :: l -> k > last && rising k l in
  match line r with
  | "row" :: (_ :: _ as l) ->
    let members = List.map (number r 1 kind.bidders) l in
    need r (rising 0 members);
    List.map (fun k -> nat_of (k - 1)) members
  | _ -> bad r

let read_multipliers r =
  match line r with
  | [ "mult"; a; b ] ->
    let first = signed r a in
    (first, signed r b)
  | _ -> bad r

let read_row r kind =
  let members = read_members r kind in
  let first, second = read_multipliers r in
  let order = read_order r kind in
  let choice = read_numbers r kind "choice" in
  { members; first; second; row_order = order_of order; row_choice = List.map nat_of choice }

let read_payments r kind =
  match line r with
  | "pay" :: l when List.length l = kind.bidders -> map (signed r) l
  | _ -> bad r

let read_count_of_rows r kind =
  match line r with [ "rows"; s ] -> number r 0 (if kind.bidders = 0 then 0 else 10) s | _ -> bad r

(* the certificate after its first line *)
let read_certificate r kind =
  let c_den = read_one r "den" in
  let c_value = read_one r "value" in
  let order = read_order r kind in
  let choice = read_numbers r kind "choice" in
  let c_table = read_table r kind "table" in
  let winners = List.filter (fun j -> List.nth choice j <> 0) (count_off kind.bidders Fun.id) in
  let c_withouts = List.map (read_without r kind) winners in
  let c_pay = read_payments r kind in
  let c_rows = count_off (read_count_of_rows r kind) (fun _ -> read_row r kind) in
  let c_lowered = read_table r kind "lowered" in
  word r "end";
  finish r;
  { c_den; c_value; c_order = order_of order; c_choice = List.map nat_of choice; c_table; c_withouts; c_pay; c_rows; c_lowered }

let read_book_certificate bidders states text =
  let r = reader text in
  if bidders <= 12 && states <= 4096 then need r (line r = [ "cert"; "1" ])
  else begin
    need r (line r = [ "cert"; "2" ]);
    need r (line r = [ "limits"; "16"; "16384" ])
  end;
  read_certificate r { bidders; has_orders = false; lines = bidders + 1; entries = states }

let read_place_certificate bidders text =
  let r = reader text in
  need r (line r = [ "pcert"; "1" ]);
  read_certificate r { bidders; has_orders = true; lines = 1; entries = 1 lsl bidders }

(* ---- files ---- *)

exception Stop of string * int (* what is printed, and the status *)

let stop status text = raise (Stop (text ^ "\n", status))

(* what [read] returns, or the answer that a file can't be read or isn't of its form *)
let reading_with what read =
  try read () with
  | Sys_error _ -> stop 4 ("cca: read fault " ^ what)
  | Refused x -> stop 3 ("cca: refused " ^ what ^ " " ^ string_of_int x)
  | Limit (kind, count) -> stop 7 ("cca: limit " ^ kind ^ " " ^ string_of_int count)

(* [load most name] is the bytes of a file, at least the first [most + 1]; it raises Sys_error if there are none. [step] is called before
   a certificate is read, with "cert", and after that with "tests". *)
type host = { load : int -> string -> string; step : string -> unit }

let reading host what most name parse =
  let loaded () =
    let text = host.load most name in
    limited "bytes" (min (String.length text) (most + 1)) most;
    parse text
  in
  reading_with what loaded

(* ---- texts: lines of fields, as Coq has them ---- *)

(* each field is made once, to save room *)
let made : (string, char list) Hashtbl.t = Hashtbl.create 65536

let chars s =
  match Hashtbl.find_opt made s with
  | Some l -> l
  | None ->
    let l = List.init (String.length s) (String.get s) in
    Hashtbl.add made s l;
    l

let string_of l = String.of_seq (List.to_seq l)

(* the lines of fields of a file; a last line without its line feed gets one as a part of a field, which no text has *)
let text_of_file separator file =
  let fields line = map chars (String.split_on_char separator line) in
  let rec lines before = function
    | [] | [ "" ] -> List.rev before
    | [ unended ] -> List.rev ([ chars (unended ^ "\n") ] :: before)
    | line :: rest -> lines (fields line :: before) rest
  in
  lines [] (String.split_on_char '\n' file)

(* ends with an answer of Coq; its last line decides on the status *)
let answer text =
  let lines = List.rev_map (List.map string_of) text in
  let status =
    match List.hd lines with
    | "no" :: _ -> 1
    | "cca:" :: "refused" :: _ -> 3
    | "cca:" :: "limit" :: _ -> 7
    | "cca:" :: _ -> 9
    | _ -> 0
  in
  stop status (String.concat "\n" (List.rev_map (String.concat " ") lines))

(* ---- the commands ---- *)

let cert_bytes = 67108864

let reading_certificate host name parse =
  host.step "cert";
  let read = reading host "cert" cert_bytes name parse in
  host.step "tests";
  read

let check_book host book_name weights_name cert_name =
  let known, book_text = reading host "book" 1048576 book_name (fun file -> (read_book file, text_of_file ' ' file)) in
  let weights, weights_text =
    match weights_name with
    | None -> (List.map (fun _ -> z_of 1) known.names, [])
    | Some name -> reading host "weights" 65536 name (fun file -> (read_weights known.names file, text_of_file ' ' file))
  in
  let read file = (read_book_certificate (List.length known.names) known.states file, text_of_file ' ' file) in
  let cert, cert_text = reading_certificate host cert_name read in
  answer (check_answer_long (List.map chars known.names) known.book weights cert book_text weights_text cert_text)

let check_places host slots_name cert_name =
  let known, slots_text = reading host "slots" 65536 slots_name (fun file -> (read_slots file, text_of_file ' ' file)) in
  let read file = (read_place_certificate (List.length known.slots) file, text_of_file ' ' file) in
  let cert, cert_text = reading_certificate host cert_name read in
  answer (places_answer_long (z_of known.band) (List.map chars known.slot_names) known.slots cert slots_text cert_text)

(* No plain award or log has a field of more than 40 characters, and no plain award a count of more than 3 digits. Coq's readers would go
   as deep as such a field is long, or such a count is high. *)
let has_short_fields = List.for_all (List.for_all (fun field -> List.compare_length_with field 40 <= 0))

let has_low_counts fields =
  let is_low field = List.length (List.filter is_digit field) <= 3 in
  match fields with
  | word :: _ when List.mem (string_of word) [ "supply"; "holding" ] -> List.for_all is_low fields
  | _ -> true

let award_of text = if has_short_fields text && List.for_all has_low_counts text then read_award text else None
let log_of text = if has_short_fields text then read_log_long text else None
let award_of_file = text_of_file ' '
let log_of_file = text_of_file ','

(* a line is a record of a plain log; a fault of an earlier line is reported first *)
let within_records award log =
  let most = 100_000 in
  if List.compare_length_with log most > 0 then
    match plain_award award_of award with
    | Some a when above_limit a = None ->
      let first = List.filteri (fun i _ -> i < most) log in
      if plain_log_long log_of a first = None then answer (refused (chars "log")) else limited "records" (most + 1) most
    | _ -> ()

let read_auction host award_name log_name =
  let award = reading host "award" 65536 award_name award_of_file in
  let log = reading host "log" 8388608 log_name log_of_file in
  reading_with "log" (fun () -> within_records award log);
  (award, log)

(* No field of a certificate has more than 41 characters. A file that has one, or another first word, is refused when it is read, before
   its text is looked at; as lists of characters such a text may need more memory than there is. *)
let has_short_words text =
  let rec go at run =
    at = String.length text
    || match text.[at] with ' ' | '\n' -> go (at + 1) 0 | _ -> run < 41 && go (at + 1) (run + 1)
  in
  go 0 0

let text_of_certificate file =
  let begins = String.length file >= 5 && String.sub file 0 5 = "cert " in
  if begins && has_short_words file then text_of_file ' ' file else []

(* Coq reads the award and the log. It asks for the certificate when the book is known, so a fault of its file comes after theirs. *)
let audit host award_name log_name cert_name =
  let award, log = read_auction host award_name log_name in
  let cert = lazy (reading host "cert" cert_bytes cert_name Fun.id) in
  let propose book _ =
    host.step "cert";
    let file = Lazy.force cert in
    let states = states_of (List.map int_of_nat book.supply) in
    let read = reading_with "cert" (fun () -> read_book_certificate (List.length book.offers) states file) in
    host.step "tests";
    Some read
  in
  let text = try text_of_certificate (Lazy.force cert) with Stop _ -> [] in
  answer (audit_answer_long award_of log_of propose award log text)

let auction host award_name log_name =
  let award, log = read_auction host award_name log_name in
  match plain_award award_of award with
  | None -> answer (refused (chars "award"))
  | Some a -> (
    match (above_limit a, plain_log_long log_of a log) with
    | Some stop, _ -> answer stop
    | None, None -> answer (refused (chars "log"))
    | None, Some lines -> answer (auction_answer_long a lines))

(* names of files aren't empty, don't begin with "-", and no two are the same *)
let are_names names =
  let is_good n = n <> "" && n.[0] <> '-' in
  List.for_all is_good names && List.length (List.sort_uniq compare names) = List.length names

let answered host = function
  | [ "check"; book; cert ] when are_names [ book; cert ] -> check_book host book None cert
  | [ "weigh-check"; book; weights; cert ] when are_names [ book; weights; cert ] -> check_book host book (Some weights) cert
  | [ "place-check"; slots; cert ] when are_names [ slots; cert ] -> check_places host slots cert
  | [ "audit"; award; log; cert ] when are_names [ award; log; cert ] -> audit host award log cert
  | [ "auction"; award; log ] when are_names [ award; log ] -> auction host award log
  | _ -> stop 2 "cca: words"

let run host words = try answered host words with Stop (text, status) -> (text, status)
