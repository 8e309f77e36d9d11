export const plate = load("A1");
