// A worker that answers a number of milliseconds once they are over, or is given another before.

let timer;
onmessage = ({ data }) => {
  clearTimeout(timer);
  timer = setTimeout(postMessage, data, data);
};
