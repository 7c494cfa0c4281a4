Creator "igraph version 0.10.15 Tue Nov 12 10:14:07 2024"
Version 1
graph
[
  directed 0
  node
  [
    id 0
    name "Alice"
    age 25
  ]
  node
  [
    id 1
    name "Bob"
    age 31
  ]
  node
  [
    id 2
    name "Claire [1]"
    age 18
  ]
  edge
  [
    source 1
    target 0
    weight 0.5
  ]
  edge
  [
    source 2
    target 0
    weight 1e-05
  ]
  edge
  [
    source 2
    target 2
    weight -1.25
  ]
]
