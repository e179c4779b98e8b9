# Which tags each round missed, of a report of `run json` that is read whole: jq -rs -f examples/missed.jq
# A tag's epc is its whole bank: behind StoredCRC, its first four digits, stand PC and EPC as in a list line.
map(select(.kind == "tag") | .epc[4:]) as $tags
| map(select(.kind == "list")) as $listed
| .[] | select(.kind == "round")
| .round as $round
| "round \($round) missed:", ($tags - ($listed | map(select(.round == $round) | .pc + .epc)) | .[])
