# Which rows of s.csv have a positive second field? The same program as filter.pact, as a person may write it.
pact 1
fields 4      # numbered from 0

sink m 0 1
map m pos s

function pos map
	v1 = int 0            # registers are Null at first
	v0 = get in 1
	v2 = lt   v1 v0
	if v2
		r0 = copy in
		emit r0
	else
	end
end

source s s.csv int:0 int:1
