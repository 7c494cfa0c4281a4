Creator	"yFiles"
Version	"2.17"
graph
[
	hierarchic	1
	label	""
	directed	1
	node
	[
		id	0
		label	"A &#34;1&#34;"
		graphics
		[
			x	75.0
			y	120.5
			type	"rectangle"
			fill	"#FFCC00"
		]
		LabelGraphics
		[
			text	"A [
1]"
			fontSize	12
			anchor	"c"
		]
	]
	node
	[
		id	1
		graphics
		[
			x	-12.75
			y	2.0E-4
			type	"roundrectangle"
		]
		isGroup	1
	]
	node
	[
		id	2
		gid	1
	]
	edge
	[
		source	2
		target	0
		graphics
		[
			targetArrow	"standard"
			Line
			[
				point
				[
					x	75.0
					y	300.0
				]
			]
		]
		edgeAnchor
		[
			ySource	-1.0
		]
	]
	edge
	[
		source	0
		target	2
		label	"back"
	]
]
