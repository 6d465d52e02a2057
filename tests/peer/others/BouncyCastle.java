// Compares the lines of keystreams.rs, read from standard input, with Bouncy Castle.

import java.util.Arrays;
import java.util.Scanner;
import org.bouncycastle.crypto.StreamCipher;
import org.bouncycastle.crypto.engines.HC128Engine;
import org.bouncycastle.crypto.engines.HC256Engine;
import org.bouncycastle.crypto.params.KeyParameter;
import org.bouncycastle.crypto.params.ParametersWithIV;
import org.bouncycastle.util.encoders.Hex;

class BouncyCastle {
    public static void main(String[] arguments) {
        int[] lines = new int[3];
        int[] equal = new int[3];
        Scanner words = new Scanner(System.in);
        while (words.hasNext()) {
            int code = Integer.parseInt(words.next());
            byte[] key = Hex.decode(words.next());
            byte[] iv = Hex.decode(words.next());
            byte[] stream = Hex.decode(words.next());
            StreamCipher cipher = code == 1 ? new HC128Engine() : new HC256Engine();
            cipher.init(true, new ParametersWithIV(new KeyParameter(key), iv));
            byte[] bytes = new byte[stream.length];
            cipher.processBytes(new byte[stream.length], 0, stream.length, bytes, 0);
            lines[code]++;
            if (Arrays.equals(bytes, stream))
                equal[code]++;
        }
        System.out.println("Bouncy Castle HC-128: " + equal[1] + " of " + lines[1] + " keystreams equal");
        System.out.println("Bouncy Castle HC-256: " + equal[2] + " of " + lines[2] + " keystreams equal");
        boolean all = lines[1] > 0 && lines[2] > 0 && equal[1] == lines[1] && equal[2] == lines[2];
        System.exit(all ? 0 : 1);
    }
}
