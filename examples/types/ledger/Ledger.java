package ledger;

import java.io.InputStream;
import java.math.BigDecimal;
import java.text.SimpleDateFormat;
import java.util.ArrayList;
import java.util.Date;
import java.util.List;
import org.junit.jupiter.api.Test;
import org.slf4j.Logger;
import org.slf4j.LoggerFactory;

class Ledger {
    private static final Logger LOG = LoggerFactory.getLogger(Ledger.class);
    Logger notes = LOG;
    private static final SimpleDateFormat DAY = new SimpleDateFormat("yyyy-MM-dd");
    private final ArrayList<BigDecimal> sums = new ArrayList<>();
    private final List<Date> days = new ArrayList<>();

    BigDecimal share(BigDecimal sum) {
        var factor = new BigDecimal(0.1);
        return sum.multiply(factor);
    }

    boolean isSame(byte[] seal, byte[] other) {
        return seal.equals(other);
    }

    int first(Date day) throws Exception {
        InputStream in = open(day);
        try (InputStream again = open(day)) {
            return in.read() + again.read();
        }
    }

    /** @deprecated {@link #share(BigDecimal)} keeps what is written. */
    @Deprecated
    BigDecimal share(double sum) {
        return share(BigDecimal.valueOf(sum));
    }

    void log(BigDecimal sum) {
        LOG.info("{} {}", share(sum), share(2.5));
    }

    @Test
    public void shares() {
        LOG.info("{}", share(new BigDecimal("2.0")));
    }

    @Test
    void seals() {
        LOG.info("{}", isSame(new byte[1], new byte[1]));
    }

    private InputStream open(Date day) {
        return null;
    }
}
