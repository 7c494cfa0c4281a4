Creator "ogdf::GraphIO::writeGML"
graph [
  directed 1
  node [
    id 0
    template "oreas:std:rect"
    label ""
    graphics [
      x 0.0000000000
      y -31.2500000000
      fill "#FFFFFF"
      type "rectangle"
    ]
  ]
  node [
    id 1
    template "oreas:std:rect"
    label ""
  ]
  edge [
    source 0
    target 1
    generalization 0
    graphics [
      type "line"
      arrow "none"
      Line [
        point [ x 0.0000000000 y 0.0000000000 ]
        point [ x 57.5000000000 y -31.2500000000 ]
      ]
    ]
  ]
  edge [
    source 1
    target 1
    generalization 0
  ]
  edge [
    source 1
    target 0
    generalization 1
  ]
]
