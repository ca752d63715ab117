# Tab goes on with the name of a host file where Ctrl-O asks for one. tests/lib/names_that_go_on says what is tried.
"$TESTS/lib/names_that_go_on"
