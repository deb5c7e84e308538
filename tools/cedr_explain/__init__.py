"""What `cedr-explain` says of a run of `cedr` that was refused, by module:

commands    the commands, and which of their words are files
json_text   a JSON text with the place of each value, or why it is none
language    the plan language: operators, members, kinds of values
values      the faults that show in a member's value alone
plan        the faults of a plan, each with its place and its sentence
types       the types of the columns of a node, and the faults of columns
advice      what people write for what a plan has
notes       what an accepted plan says that means nothing
event_line  the fields of one event line, and its faults
checkpoint  a file up to the line at which it isn't a checkpoint of the plan
events      a file up to its faulty line: the events and the guarantee that it leaves
outside     files that can't be opened, output that isn't taken, memory that ran out
usage       words that match no command
progress    how far each file is read
"""
