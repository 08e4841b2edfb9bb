# Godot 3: AStar2D on a built graph of points. They lie at the cells' places, so its own lengths of moves are 1 and
# sqrt 2; its estimate is the straight-line distance.
extends SceneTree

func free_cells(name):
	var file = File.new()
	file.open(name, File.READ)
	file.get_line()
	var height = int(file.get_line().split(" ")[1])
	var width = int(file.get_line().split(" ")[1])
	file.get_line()
	var cells = PoolByteArray()
	for _y in range(height):
		for byte in file.get_line().to_ascii():
			cells.append(1 if byte == 46 or byte == 71 or byte == 83 else 0)
	file.close()
	return [width, height, cells]

func graph_of(width, height, cells):
	var graph = AStar2D.new()
	graph.reserve_space(width * height)
	for cell in range(width * height):
		if cells[cell]:
			graph.add_point(cell, Vector2(cell % width, cell / width))
	for cell in range(width * height):
		if not cells[cell]:
			continue
		var x = cell % width
		var right = x + 1 < width and cells[cell + 1]
		var below = cell + width < width * height and cells[cell + width]
		if right:
			graph.connect_points(cell, cell + 1)
		if below:
			graph.connect_points(cell, cell + width)
		if right and below and cells[cell + width + 1]:
			graph.connect_points(cell, cell + width + 1)
		if below and x > 0 and cells[cell - 1] and cells[cell + width - 1]:
			graph.connect_points(cell, cell + width - 1)
	return graph

func length_of(path, width):
	var length = 0.0
	for place in range(1, path.size()):
		var apart = abs(path[place] - path[place - 1])
		length += 1.0 if apart == 1 or apart == width else sqrt(2.0)
	return length

func _init():
	var words = {}
	for word in OS.get_cmdline_args():
		if "=" in word:
			words[word.split("=")[0]] = word.split("=")[1]
	var began = OS.get_ticks_usec()
	var told = free_cells(words["--map"])
	var width = told[0]
	var graph = graph_of(width, told[1], told[2])
	var prepared = OS.get_ticks_usec() - began
	var file = File.new()
	file.open(words["--scen"], File.READ)
	file.get_line()
	if "--timed" in words:
		print("prepared " + str(prepared * 1000))
	var count = 0
	var sum = 0
	var wrong = 0
	while not file.eof_reached():
		var fields = file.get_line().split("\t")
		if fields.size() < 9:
			continue
		var before = OS.get_ticks_usec()
		var path = graph.get_id_path(int(fields[5]) * width + int(fields[4]), int(fields[7]) * width + int(fields[6]))
		var spent = OS.get_ticks_usec() - before
		sum += spent
		count += 1
		if "--timed" in words:
			var line = ""
			for cell in path:
				line += "%d,%d " % [int(cell) % width, int(cell) / width]
			print((line if path.size() else "none ") + str(spent * 1000))
			continue
		if abs(length_of(path, width) - float(fields[8])) > 1e-6 * (1.0 + float(fields[8])):
			wrong += 1
	if not "--timed" in words:
		print('{"queries": %d, "prepared": %.6f, "mean": %.9f, "wrong": %d}' % [count, prepared / 1e6, sum / 1e6 / count, wrong])
	quit()
