// How web/browser.ml hands its functions to the page: each takes and gives texts of one byte a character.
//Provides: judge_export
//Requires: caml_jsbytes_of_string, caml_string_of_jsbytes
function judge_export(name, f) {
  var judge = globalThis.judge || (globalThis.judge = {});
  judge[caml_jsbytes_of_string(name)] = function (text) {
    return caml_jsbytes_of_string(f(caml_string_of_jsbytes(text)));
  };
  return 0;
}
