// Semicolons that lack or are too many, blanks at the ends of lines, and no line feed at the end.
const first = 1
const second = 2;;   
first == second   
debugger