import java.lang.module.ModuleDescriptor;
import java.nio.ByteBuffer;
import java.nio.file.Files;
import java.nio.file.Path;
import java.util.Arrays;

/** Times of ModuleDescriptor.read, warmed up: Read SECONDS NAME FILE... prints name, best and median in nanoseconds. */
public class Read {
    private static final int BATCH = 20;
    private static Object kept;

    private static double sample(byte[] file) {
        long start = System.nanoTime();
        for (int i = 0; i < BATCH; i++) {
            kept = ModuleDescriptor.read(ByteBuffer.wrap(file));
        }
        return (System.nanoTime() - start) / (double) BATCH;
    }

    public static void main(String[] arguments) throws Exception {
        long span = (long) (Double.parseDouble(arguments[0]) * 1e9);
        for (int a = 1; a + 1 < arguments.length; a += 2) {
            byte[] file = Files.readAllBytes(Path.of(arguments[a + 1]));
            // three times the span, and at least 5,000 reads, go before the samples that count
            long start = System.nanoTime();
            for (int i = 0; i < 250 || System.nanoTime() - start < 3 * span; i++) {
                sample(file);
            }
            double[] samples = new double[1_000_000];
            int n = 0;
            start = System.nanoTime();
            while (n < samples.length && (n < 20 || System.nanoTime() - start < span)) {
                samples[n++] = sample(file);
            }
            Arrays.sort(samples, 0, n);
            System.out.println(arguments[a] + " " + samples[0] + " " + samples[n / 2]);
        }
    }
}
