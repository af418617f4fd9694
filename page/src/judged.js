// What is judged of the run, as far as the position gives away no answer that is yet to come.
import {state} from './state.js';

// The judgement of the run, where it gives away no answer that is yet to come: one that names an event from that on,
// and else at the end of the run.
export function toldJudgement() {
    const {judged, operations, at, report} = state;
    return judged?.events === operations.text && at >= (judged.item || report.total) ? judged : null;
}

const EXPLAINED = {item: 0, who: 0};

// The item and the process of the answer that no order of the operations explains, where that is told; 0 and 0 where
// there is none.
export function unexplained() {
    const told = toldJudgement();
    return told?.verdict === 'not linearizable' ? told : EXPLAINED;
}
