export const draft = { price: };
