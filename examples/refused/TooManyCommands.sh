#!/bin/sh
# A document whose one frame has one command more than a frame may have, 1,048,577.
printf '{"next":0,"entities":[],"frames":1,"commands":[['
awk 'BEGIN { for (place = 0; place < 1048576; place++) printf "{\"kill\":0}," }'
printf '{"kill":0}]]}\n'
