/** Plays the sound of a row, from a place on, as often as wanted. */

class Player {
  constructor(whenEnded) {
    this.whenEnded = whenEnded;
    this.node = null;
  }

  /** Begins to play frames of a sound, from one of them on; those from begin to end again and again where that is wanted. */
  async play(source, span, from, isLoop, speed) {
    this.stop();
    this.context = this.context || new AudioContext();
    const turn = this.turn = {};
    const heard = await this.heardOf(source.track, ...span);
    await this.context.resume();
    if (turn !== this.turn) return;
    Object.assign(this, { source, span, from, isLoop, speed, heard });
    this.start();
  }

  start() {
    const node = this.node = new AudioBufferSourceNode(this.context, { buffer: this.heard.buffer, loop: this.isLoop, playbackRate: this.speed });
    node.connect(this.context.destination);
    node.onended = () => { if (this.node === node) this.end(); };
    this.begun = this.context.currentTime;
    node.start(0, (this.from - this.span[0]) / this.source.track.rate);
  }

  end() {
    const last = this.span[1];
    this.stop();
    this.whenEnded(this.source.outside(last));
  }

  stop() {
    const { node } = this;
    [this.node, this.turn] = [null, null];
    if (node) node.stop();
  }

  isOn() {
    return this.node !== null;
  }

  /** Where on the axis the sound is that is heard now. */
  place() {
    const [begin, end] = this.span, seconds = this.context.currentTime - this.begun - (this.context.outputLatency || 0);
    const passed = seconds * this.source.track.rate * this.speed;
    const at = this.from - begin + Math.max(passed, 0), length = end - begin;
    return this.source.outside(begin + (this.isLoop ? at % length : Math.min(at, length)));
  }

  /** What is played of some frames of a track: they themselves, or else the copy to listen to. */
  async heardOf(track, begin, end) {
    const isWhole = track.isWhole(begin, end);
    if (!isWhole && !track.copy) throw new Error("the sound isn't in this file");
    const lanes = isWhole ? wholeLanes(track, begin, end) : await copied(track, begin, end);
    const rate = isWhole ? track.rate : track.rate / track.copy.every;
    const buffer = bufferOf(this.context, lanes, rate, track.channels);
    return { buffer, isWhole };
  }
}

/** The copy to listen to of some frames. */
async function copied(track, begin, end) {
  await track.readCopy();
  const { every } = track.copy;
  return track.codes.map((codes) => heardCodes(codes.subarray(Math.floor(begin / every), Math.floor(end / every))));
}

function heardCodes(codes) {
  const lane = new Float32Array(codes.length);
  for (let at = 0; at < codes.length; at += 1) lane[at] = LISTENED[codes[at]];
  return lane;
}

function wholeLanes(track, begin, end) {
  const lanes = Array.from({ length: track.channels }, () => new Float32Array(end - begin));
  for (let at = Math.max(begin, 0); at < Math.min(end, track.frames);) {
    const part = track.partOf(at), [first, last] = track.chunks[part], to = Math.min(last, end);
    lanes.forEach((lane, channel) => {
      const { samples } = track.parts[part][channel];
      for (let k = at; k < to; k += 1) lane[k - begin] = samples[k - first] / track.full;
    });
    at = to;
  }
  return lanes;
}

/** Up to six channels have their own place, which browsers know for 1, 2, 4 and 6; of eight the sides join the back. */
function bufferOf(context, lanes, rate, channels) {
  const count = lanes.length > 6 ? 6 : lanes.length, length = Math.max(lanes[0].length, 1);
  let times = 1;
  while (rate * times < 8000) times += 1;
  const buffer = new AudioBuffer({ length: length * times, numberOfChannels: count, sampleRate: rate * times });
  for (let at = 0; at < count; at += 1) fillChannel(buffer.getChannelData(at), lanes[at], channels === 8 && at > 3 ? lanes[at + 2] : null, times);
  return buffer;
}

/** Puts a lane into a channel, each sample `times` times, with another lane where one joins it. */
function fillChannel(into, lane, more, times) {
  if (times === 1 && !more) {
    into.set(lane.subarray(0, into.length));
    return;
  }
  for (let k = 0; k < into.length; k += 1) into[k] = lane[Math.floor(k / times)] + (more ? more[Math.floor(k / times)] : 0);
}
