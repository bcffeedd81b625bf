// Classes, an enumeration and a namespace.
export enum Colour { Red, Green = 'green'.length, Blue = Red | 4 }
const enum Sides { None = 0, Four = 4 }

export abstract class Shape {
  static count = 0;
  readonly colour: Colour = Colour.Blue;
  constructor() { Shape.count++ }
  abstract area(): number;
  get sides(): number { return Sides.None }
  toString() { return `${this.constructor.name}:${Colour[this.colour]} (${this.area().toFixed(1)} m²)` }
}

export class Circle extends Shape {
  constructor(private radius: number) { super() }
  area() { return Math.PI * this.radius * this.radius }
}

export class Square extends Shape {
  constructor(protected side: number, readonly label = '□') {
    super();
    if (side < 0) throw new RangeError('side ' + side + ' is below 0');
  }
  area() { return this.side ** 2 }
  override get sides() { return Sides.Four }
  override toString() { const text = super.toString(); return text.replace(/^(\w+):/u, (_, name) => `${name}!`) }
}

export namespace Squares {
  export const unit = new Square(1);
  export function* upTo(most: number): IterableIterator<Square> {
    yield unit;
    for (let side = 2; side <= most; side++) {
      if (side % 2 === 0) continue;
      const given: number | undefined = yield new Square(side);
      if (given) side = given;
    }
  }
}

export type Any = Circle | Square;
export const isSquare = (shape: Any): shape is Square => shape instanceof Square;
