"""Oatmist's desk for people: texts, sheets, words and sittings over the proved calls.

The modules, lowest first: `faults` (what goes wrong, in words), `model` (a system and an execution in memory), `product` (a product and its
bytes), `library` and `calls` (the proved calls), `sheet` (the bytes), `text` (the readable text), `rows` (a product becomes a system),
`words` (refusals in words), `columns` and `waiting` (columns become an execution, or why they do not), `classes`, `sittings`, `listings` and
`receipts` (folders of executions), `pictures` and `graphs` (drawings), `cli` and `verbs` (the command).
"""
