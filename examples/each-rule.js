// A problem for each rule.
export function check(list, value) {
  debugger;
  const sparse = [list, , value];
  if (value == list) return sparse;
  while (value = list.next()) use(value);;
  switch (typeof value) {
    default:
      break;
    case 1:
    case 1:
      return typeof value === "strnig"
  }
  try {} finally {
    return !list in value;
  }   
  odd: sparse = value;
  let spare;
  void 0;
}