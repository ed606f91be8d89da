"""Document 01 and requests (ii), (x) and (xi) of document 02, in whole numbers of any size.

One module for each subject of the documents, in their order:

  quantities  ranges, kinds, refusals, readings            "Quantities and ranges"
  energies    F, H, G, B, u, v, terms, means, c, k         "Sums of energies"; 02, "Halves .."
  rating      deficits, positions, shifts, the sheet       "Rating"
  rooms       background, raw bands, octaves, specimens,
              covers, grades                               "Background ..", "Covers and grades"
  lift        the lift list                                "The lift list"
  lines       request and answer lines, whole runs         "Request and answer lines"
  register    request keys, charges, totals, the bytes     02, "Request keys on the bill"

A refusal is the exception Refused with the document's number.
"""
