# Takes the examples out of the comments of a header: what follows on a line `Example:`, less the comment's margin.
/^ \* Example:$/ { inside = 1; next }
inside && /^ \*$/ { print ""; next }
inside && /^ \*     / { print substr($0, 8); next }
{ inside = 0 }
