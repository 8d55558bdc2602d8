export interface Answer { status: number; out: string; err: string }
export const of: string;
export function call(words: string[], files?: Record<string, string | Uint8Array>): Answer;
export function run(text: string | Uint8Array, words?: string[]): Answer;
