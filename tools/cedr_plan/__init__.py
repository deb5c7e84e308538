"""Plans in words for `cedr-plan`, by module:

refused     what keeps a text from being a plan, and the form in which it is told
text        a text from a file, cut into its statements
grammar     the forms of statements and of patterns
tree        what a statement says, each part with its place
form        a statement that isn't in form, in sentences
units       spans of time, and times as dates
columns     the columns of nodes by name
clauses     the words behind what a node reads
source      the columns of a source
tests       tests and lists of columns, as a document has them
node        one statement as a node of a document
plan        all statements as a plan
pattern     an EVENT statement as statements of nodes
between     the nodes of a NOT in a pattern
document    a plan as the text of a JSON document
words       a document as words
ask         the program's answer to a plan in words, with the names of its columns
command     the command line
"""
