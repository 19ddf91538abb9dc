"use strict"
// The words of the page. Nothing here decides anything.

const KINDS = {
  award: "Award", log: "Log", cert: "Certificate", book: "Book of bids", weights: "Weights", slots: "Slots", checksums: "Checksums", other: "Not used",
}

const TESTS = {
  C1: "the numbers of the certificate are within their bounds",
  C2: "the winning bids fit into the supply, and are worth what the certificate says",
  C3: "no other choice of bids is worth more, and no choice of equal worth comes first in the order of ties",
  C4: "for each winner, the best choice without it is right, which gives its Vickrey price",
  C5: "each winner pays at least the reserve and at most its bid, and nobody else pays",
  C6: "each group of winners that the certificate names pays exactly what the others offer for what the group won",
  C7: "no other prices that nobody can block have a smaller sum",
  C8: "of all prices that nobody can block and that have the least sum, these are the nearest to the Vickrey prices",
  C9: "no coalition of bidders offers more than all winners pay",
  P1: "the numbers of the certificate are within their bounds",
  P2: "the winning bids fit side by side into the band, and are worth what the certificate says",
  P3: "no other choice of bids is worth more",
  P4: "for each winner, the best choice without it is right, which gives its Vickrey price",
  P5: "each winner pays at least 0 and at most its bid, and nobody else pays",
  P6: "each group of winners that the certificate names pays exactly what the others offer for the place of the group",
  P7: "no other prices that nobody can block have a smaller sum",
  P8: "of all prices that nobody can block and that have the least sum, these are the nearest to the Vickrey prices",
  P9: "no coalition of bidders offers more than all winners pay",
}

// why a line of a log is refused, by the word of the reply: its numbers, the names of the categories, and the line
const REPLIES = {
  stage: () => "No line of this kind belongs to the stage that the auction was in.",
  unknown: () => "The award has no such bidder.",
  supply: ([category], names) => `The package has more lots of ${names[category - 1]} than are sold.`,
  "spectrum-cap": ([number, limit]) => `With what the bidder holds already, the package is above the limit ${grouped(limit)} of spectrum cap ${number}.`,
  points: ([points]) => `The package has more points than the bidder is eligible for, ${grouped(points)}.`,
  empty: () => "The package has no lot.",
  "below-reserve": ([reserve]) => `The amount is below the reserve of the package, ${grouped(reserve)}.`,
  "below-clock": ([amount]) => `The amount is below ${grouped(amount)}, the most at which the bidder asked for this package in the clock.`,
  full: ([most], names, line) => line.startsWith("close") ? `There is no round after round ${most}.` : `The draft list has no room for another package: it has ${most}.`,
  "amount-top": ([most]) => `The amount is above the greatest one, ${grouped(most)}.`,
  "no-draft": () => "The draft list doesn't have this package.",
  "relative-cap": ([entry, cap]) => `Entry ${entry} of the draft list is above its relative cap, ${grouped(cap)}.`,
  "price-top": ([category, price], names) => `The price of ${names[category - 1]} would be ${grouped(price)}, which is above the greatest price.`,
}

const WINNERS = "No other set of bids that fits is worth more."
const PRICES = "No coalition of bidders can block the prices: no group offers more than all winners pay. The sum of the prices is the least for which that is so, and no other prices of that sum are as near to the Vickrey prices."
const ties_by = file => ` If several sets of bids are worth as much, the order of the bidders in the ${file} decides, and it is applied.`
const SAYS = {
  audit: ["The log is complete. The bids that count are exactly those that the activity rules of this award admit.", WINNERS + ties_by("award"), PRICES],
  check: [WINNERS + ties_by("book"), PRICES],
  "weigh-check": [WINNERS + ties_by("book"), PRICES, "Each square of the distance from the Vickrey prices is divided by the weight of its bidder."],
  "place-check": [WINNERS, PRICES],
}
const OTHER_FILES = "Whether these are the files of the sale: compare their checksums with the published ones."
const OTHER_PRICES = "Whether these are the prices that were published: compare the whole table with them."
const DOESNT_SAY = {
  audit: [
    "Whether the log has all that was sent, in its order: each bidder has to compare its own lines with what it sent.",
    "Whether each line did what its sender meant. A refused line changes nothing; the refused lines are below.",
    OTHER_FILES,
    OTHER_PRICES,
    "Whether there was a tie, which the order of the bidders in the award decided.",
    "Anything about who a bidder is, deposits, or bidders that are associated.",
  ],
  check: ["Whether the book has the bids that were made: only the award and the log of the auction show that.", OTHER_FILES, OTHER_PRICES],
}
DOESNT_SAY["weigh-check"] = DOESNT_SAY.check
DOESNT_SAY["place-check"] = ["Whether the file of slots has the bids that were made.", OTHER_FILES, OTHER_PRICES]

const QUESTION = {
  audit: "winners and prices are right",
  check: "winners and prices of this book are right",
  "weigh-check": "winners and prices of this book with these weights are right",
  "place-check": "places and prices are right",
}
const FULL_NAME = { award: "The award", log: "The log", cert: "The certificate", book: "The book", weights: "The file of weights", slots: "The file of slots" }
const LIMITS = {
  bytes: "bytes of a file", categories: "categories", lots: "lots, or slots of a band", states: "states (the product of the supplies, each plus one)",
  bidders: "bidders", bids: "bids of one bidder", records: "records of a log", rounds: "clock rounds", price: "a price",
}

const grouped = number => String(number).replace(/\B(?=(\d{3})+$)/g, ",")
// an amount as the checker prints it: a whole number, or one with a fraction, as 81+1/3
const amount = text => { const [whole, rest] = text.split("+"); return grouped(whole) + (rest ? " " + rest : "") }
const listed = words => words.length < 2 ? words.join("") : `${words.slice(0, -1).join(", ")} and ${words[words.length - 1]}`
