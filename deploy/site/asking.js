// @ts-check
// The page at an address. (Read as a document: no text becomes a part of this page)
/** @param {string} method @param {string} address @param {FormData | null} body @returns {Promise<XMLHttpRequest>} */
export function asked(method, address, body = null) {
  return new Promise((resolve, reject) => {
    const request = new XMLHttpRequest();
    request.open(method, address);
    request.responseType = "document";
    request.setRequestHeader("Accept", "text/html");
    request.onload = () => resolve(request);
    request.onerror = reject;
    request.send(body);
  });
}
