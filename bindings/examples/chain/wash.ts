export function wash(plate: Plate, times: number) {
  spin(plate, times);
  heat(plate, 37);
}
