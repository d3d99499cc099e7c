// What the counts of a session mean, in one plain sentence with its kind: idle, good, warn or bad.

const some = (count, one, many = `${one}s`) => `${count.toLocaleString("en")} ${count === 1 ? one : many}`;
const replies = count => some(count, "reply", "replies");

// The sentence on the device's retransmissions.
function again({ retransmissions, different }) {
  if (!retransmissions) return "The device sent nothing twice.";
  if (different) return `${some(different, "retransmission")} of ${retransmissions.toLocaleString("en")} with different bytes.`;
  if (retransmissions === 1) return "One retransmission by the device, identical.";
  return `${some(retransmissions, "retransmission")} by the device, all identical.`;
}

// `loading` is the target that the frame is loading, if it is.
export function verdictOf(sums, loading = "") {
  const { complete, wrong, truncated, different } = sums, all = complete + wrong + truncated;
  if (wrong) return { kind: "bad", head: `${wrong.toLocaleString("en")} of ${replies(all)} wrong`, more: again(sums) };
  if (different) return { kind: "bad", head: "One sequence number had two bytes", more: again(sums) };
  if (loading) return { kind: "idle", head: `Loading ${loading}`, more: all ? `So far ${replies(complete)} complete. ${again(sums)}` : "" };
  if (!all) return { kind: "idle", head: "No reply yet", more: "Each reply that ends is compared with the first copy of its file." };
  const cut = `${replies(complete)} complete, ${truncated.toLocaleString("en")} truncated`;
  if (truncated) return { kind: "warn", head: cut, more: `The connection ended before the reply did. No reply is wrong. ${again(sums)}` };
  return { kind: "good", head: complete === 1 ? "The reply is complete" : `All ${replies(complete)} complete`, more: again(sums) };
}

// The result of a load test, with its kind.
export function resultOf({ complete, wrong, truncated, seconds, bytes }) {
  const kind = wrong ? "bad" : truncated ? "warn" : "good", counts = `${complete} complete, ${wrong} wrong, ${truncated} truncated`;
  if (!seconds) return { kind, words: `${counts} ..` };
  return { kind, words: `${counts}. ${(complete / seconds).toFixed(1)} pages/s, ${(bytes / seconds / 1024).toFixed(1)} KiB/s.` };
}
