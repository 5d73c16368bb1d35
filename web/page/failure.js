import { html } from "./dom.js";

/** What stands in the place of a part that can't be shown. */
export const failure = (error) => html("p", { class: "failure", role: "alert" }, error.message);
