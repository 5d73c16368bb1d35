// The texts of errors: those of the library, but for two.

const IO_ERROR = 7, OUT_OF_MEMORY = 28;
export const NO_MEMORY = "There is not enough memory for this file.";
const TEXTS = { [IO_ERROR]: "the file ends too soon, or there is not enough memory", [OUT_OF_MEMORY]: NO_MEMORY };

export const textOf = (error) => TEXTS[error.status] ?? error.message;
