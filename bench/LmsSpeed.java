// How long Bouncy Castle takes for what bench/lms.sh measures: keys of kind W4 at heights 5 and 10,
// a signature of 32 bytes, and its verification. Each figure is the least of several runs.

import org.bouncycastle.pqc.crypto.lms.LMOtsParameters;
import org.bouncycastle.pqc.crypto.lms.LMSPrivateKeyParameters;
import org.bouncycastle.pqc.crypto.lms.LMSPublicKeyParameters;
import org.bouncycastle.pqc.crypto.lms.LMSSigner;
import org.bouncycastle.pqc.crypto.lms.LMSigParameters;

public class LmsSpeed {
    static LMSPrivateKeyParameters secret(LMSigParameters height) {
        return new LMSPrivateKeyParameters(height, LMOtsParameters.sha256_n32_w4, 0, new byte[16], 1 << height.getH(), new byte[32]);
    }

    public static void main(String[] words) throws Exception {
        byte[] content = new byte[32];
        for (LMSigParameters height : new LMSigParameters[] {LMSigParameters.lms_sha256_n32_h5, LMSigParameters.lms_sha256_n32_h10}) {
            long key = Long.MAX_VALUE;
            long sign = Long.MAX_VALUE;
            long verify = Long.MAX_VALUE;
            for (int run = 0; run < (height.getH() == 5 ? 20 : 3); run++) {
                LMSPrivateKeyParameters secret = secret(height);
                long start = System.nanoTime();
                LMSPublicKeyParameters pub = secret.getPublicKey();
                key = Math.min(key, System.nanoTime() - start);
                for (int i = 0; i < 32; i++) {
                    LMSSigner signer = new LMSSigner();
                    signer.init(true, secret);
                    start = System.nanoTime();
                    byte[] signature = signer.generateSignature(content);
                    sign = Math.min(sign, System.nanoTime() - start);
                    LMSSigner verifier = new LMSSigner();
                    verifier.init(false, pub);
                    start = System.nanoTime();
                    boolean good = verifier.verifySignature(content, signature);
                    verify = Math.min(verify, System.nanoTime() - start);
                    if (!good) {
                        throw new IllegalStateException("not valid");
                    }
                }
            }
            System.out.printf("height %d: key %.2f ms, sign %.3f ms, verify %.3f ms%n", height.getH(), key / 1e6, sign / 1e6, verify / 1e6);
        }
    }
}
