export function total(items) {
  return items.map((item) => price(item)).reduce((sum, next) => sum + next, 0);
}

const price = (item) => {
  if (!item.price) throw new TypeError("no price");
  return item.price;
};
