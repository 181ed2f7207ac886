# Checks the types of the JavaScript package: the types in the comments of its sources, and index.d.ts. The
# sources must have the types that index.d.ts declares. The compiler must refuse the marked lines of a program
# that uses the package.
tests=$(cd "$(dirname "$0")/.." && pwd -P)
. "$tests/common/cases.sh"
. "$tests/common/javascript.sh"
needs tsc

# types LABEL FILE WORDS..: prints whether a file is free of type errors.
types() {
    label=$1
    shift
    tsc --noEmit --strict --target es2022 --lib es2022,dom --module es2022 --moduleResolution node \
        --typeRoots "$room/none" "$@" && echo "$label: no fault"
}

mkdir -p node_modules && ln -s "$package" node_modules/tpmsim
cp "$tests/javascript/uses.ts" uses.ts
cat >same.ts <<END
import * as declared from "tpmsim";
import * as real from "$package/src/index.js";
// device.js adds this method where the language has Symbol.dispose.
declare module "$package/src/device.js" {
  interface Device { [Symbol.dispose](): void }
}
type Shape<M> = {
  [Name in keyof M]: M[Name] extends { prototype: infer Instance }
    ? { instance: Instance; statics: Omit<M[Name], "prototype"> }
    : M[Name];
};
declare const there: Shape<typeof real>;
export const same: Shape<typeof declared> = there;
END
types 'the sources' --allowJs --checkJs "$package/src/index.js"
types 'index.d.ts' "$package/index.d.ts"
types 'the sources as declared' --allowJs same.ts
types 'a program' uses.ts

# types_without_dom LABEL WORDS..: the same, without the types of the DOM.
types_without_dom() {
    label=$1
    shift
    tsc --noEmit --strict --target es2022 --lib es2022 --typeRoots "$room/none" "$@" && echo "$label: no fault"
}
cat >plain.ts <<'END'
import { Device, Refused } from "tpmsim";
export async function use(): Promise<number> {
  const tpm = await Device.create({ seed: "mine" });
  try {
    return tpm.accepted("GetRandom 4").drawn + tpm.log.length;
  } catch (fault) {
    return fault instanceof Refused ? fault.code : 0;
  }
}
END
types_without_dom 'without dom' --module es2022 --moduleResolution node plain.ts
mkdir -p packed/node_modules && cp -rL "$package" packed/node_modules/tpmsim && cp plain.ts packed/
cp packed/node_modules/tpmsim/index.d.ts packed/node_modules/tpmsim/index.d.cts
echo '{ "private": true }' >packed/package.json
(cd packed && types_without_dom 'CommonJS' --module nodenext plain.ts)
