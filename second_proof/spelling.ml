(* What a page shows next to a refusal. Nothing here has to be believed: an answer is about the bytes that the checker was given. *)
open Tests

(* the number of the first of these numbered lines that differs from [printed], or 0 *)
let rec first_difference lines printed =
  match (lines, printed) with
  | [], [] -> 0
  | (_, x) :: l, y :: m when x = y -> first_difference l m
  | (number, _) :: _, _ -> number
  | [], _ :: _ -> 0

(* the number of the first line of an award that differs from the plain spelling of what is read, or 0 if nothing can be read *)
let award_line award =
  let kept i line = List.map (fun fields -> (i + 1, fields)) (without_comments [ line ]) in
  let lines = List.concat (List.mapi kept (Answers.award_of_file award)) in
  match Answers.award_of (List.map snd lines) with None -> 0 | Some a -> first_difference lines (award_text a)

(* the number of the first line in a log of this award that on its own states nothing, or 0 *)
let log_line award log =
  match plain_award Answers.award_of (Answers.award_of_file award) with
  | None -> 0
  | Some a ->
    let rec go number = function
      | [] -> 0
      | line :: rest -> if plain_log_long Answers.log_of a [ line ] = None then number else go (number + 1) rest
    in
    go 1 (Answers.log_of_file log)
