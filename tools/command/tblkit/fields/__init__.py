"""Tables by the fields of their C definition, as the object file of a table has it: the definition that CFE_TBL_FILEDEF states, the
layout that the debugging information gives, and images as text. `definitions` is where to begin."""
