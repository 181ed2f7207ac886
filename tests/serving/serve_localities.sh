# Serves a device at locality 3 and at locality 4. PCR 17 shows the locality: localities 2 to 4 can extend it,
# and locality 4 can reset it. Each run may serve the device at a different locality.
tests=$(cd "$(dirname "$0")/.." && pwd -P)
. "$tests/common/cases.sh"
. "$tests/common/served.sh"

extend=$(words 'PCR_Extend 00000011 pw:- sha1:0000000000000000000000000000000000000000')
read=$(words 'PCR_Read sha1:17')

for locality in 4 3 1; do
    begin 1
    talk "locality $locality: a reset, an extend and a read of PCR 17" 4096 "$(words 'Startup 0')" \
        "$(words 'PCR_Reset 00000011 pw:-')" "$extend" "$read"
    ended 'one connection'
done
