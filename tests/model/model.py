"""All calls of the model under the names that card.h gives them. Each part of the documents has a file of its own."""

import builder
import card
import entries
import ground
import headers
import labels
import maps
import mbr
import payload
import reader
import stages
import sums
import texts
import uefi
import windows

PARTS = (card, ground, maps, stages, reader, payload, windows, labels, sums, headers, builder, entries, uefi, mbr, texts)
CALLS = {name: function for part in PARTS for name, function in vars(part).items() if hasattr(function, "lent")}
