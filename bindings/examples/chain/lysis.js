const plate = load("lysis");
function wash(plate, times) {
  spin(plate, times);
  heat(plate, 37);
}
wash(plate, 3);
